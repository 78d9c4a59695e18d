"""The what-if page: `server` serves it on the loopback address, page.html, page.js and page.css are the page."""
