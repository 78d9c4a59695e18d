"""Words that planners write over the columns of their tables, in English, German, French, Spanish, Italian, Portuguese
and Dutch.

The sets below `COLUMNS` hold words as `columns.folded` leaves them: in small letters, without accents.
"""

from __future__ import annotations

from typing import Dict, Tuple

COLUMNS: Dict[str, Tuple[str, ...]] = {
    "node": ("name", "node", "id", "place", "town", "city", "site", "location", "person", "key", "plant", "customer")
    + ("warehouse", "depot", "node name", "node id")
    + ("Knoten", "Ort", "Stadt", "Standort", "Lager", "Werk", "Kunde", "Bezeichnung")
    + ("nom", "nœud", "noeud", "lieu", "ville", "entrepôt", "usine", "client")
    + ("nombre", "nodo", "lugar", "ciudad", "sitio", "almacén", "planta", "cliente")
    + ("nome", "luogo", "località", "città", "sito", "magazzino")
    + ("cidade", "localidade", "armazém")
    + ("naam", "knooppunt", "plaats", "stad", "locatie", "magazijn"),
    "supply": ("supply", "supplies", "stock", "available", "amount", "offer", "production", "inventory")
    + ("net supply",)
    + ("Angebot", "Bestand", "Vorrat", "Lagerbestand", "Produktion", "verfügbar", "verfügbare")
    + ("offre", "disponible", "production", "approvisionnement")
    + ("oferta", "existencias", "suministro", "producción")
    + ("offerta", "disponibilità", "disponibile", "giacenza", "scorta", "scorte", "produzione", "fornitura")
    + ("disponibilidade", "disponível", "estoque", "existências", "produção", "fornecimento")
    + ("aanbod", "voorraad", "beschikbaar", "productie"),
    "demand": ("demand", "demands", "need", "needs", "needed", "wanted", "orders", "order", "required", "consumption")
    + ("Bedarf", "Nachfrage", "benötigt", "benötigte", "Bestellung", "Bestellungen", "Verbrauch")
    + ("demande", "besoin", "besoins", "commande", "commandes", "consommation")
    + ("demanda", "necesidad", "pedido", "pedidos", "consumo")
    + ("domanda", "fabbisogno", "richiesta", "richieste", "ordine", "ordini")
    + ("procura", "necessária", "necesaria", "necessidade", "encomenda", "encomendas")
    + ("vraag", "behoefte", "bestelling", "bestellingen", "verbruik"),
    "from": ("from", "tail", "source", "origin", "src", "start", "from node", "start node", "sender", "supplier")
    + ("source node", "from id", "source id", "origin id", "from name", "source name", "origin name", "from place")
    + ("von", "ab", "Quelle", "Startort", "Herkunft", "Absender", "Lieferant")
    + ("de", "depuis", "origine", "départ", "expéditeur")
    + ("desde", "origen", "salida", "remitente")
    + ("da", "partenza", "mittente", "fornitore")
    + ("origem", "partida", "remetente", "fornecedor")
    + ("herkomst", "oorsprong", "vertrek", "afzender", "leverancier"),
    "to": ("to", "head", "target", "destination", "dst", "dest", "end", "to node", "end node", "receiver")
    + ("target node", "to id", "target id", "destination id", "to name", "target name", "destination name", "to place")
    + ("nach", "bis", "zu", "Ziel", "Zielort", "Empfänger")
    + ("vers", "à", "arrivée", "destinataire")
    + ("hasta", "a", "destino", "hacia", "llegada", "destinatario")
    + ("destinazione", "arrivo")
    + ("para", "chegada", "destinatário")
    + ("naar", "bestemming", "aankomst", "ontvanger"),
    "low": ("low", "lower", "lower bound", "lower limit", "least", "min", "minimum", "at least", "min flow", "lb")
    + ("mindestens", "Untergrenze", "untere Grenze", "untere Schranke", "Mindestmenge")
    + ("au moins", "borne inférieure", "limite inférieure")
    + ("mínimo", "al menos", "cota inferior", "límite inferior")
    + ("minimo", "minima", "minimale", "almeno", "limite inferiore", "pelo menos")
    + ("minimaal", "ondergrens", "ten minste"),
    "capacity": (
        "capacity",
        "cap",
        "kap",
        "upper",
        "upper bound",
        "upper limit",
        "most",
        "max",
        "maximum",
        "limit",
        "at most",
    )
    + ("max flow", "max capacity", "maximum capacity", "ub")
    + (
        "Kapazität",
        "max. Kapazität",
        "maximale Kapazität",
        "höchstens",
        "Obergrenze",
        "obere Grenze",
        "obere Schranke",
        "Höchstmenge",
    )
    + ("capacité", "capacité max", "capacité maximale", "au plus", "borne supérieure", "limite supérieure", "limite")
    + ("capacidad", "capacidad máxima", "máximo", "como máximo", "cota superior", "límite superior", "límite")
    + (
        "maximale",
        "máxima",
        "capacità",
        "capacità massima",
        "massimo",
        "massima",
        "al massimo",
        "limite superiore",
        "portata",
    )
    + ("capacidade", "capacidade máxima", "no máximo", "limite superior")
    + ("capaciteit", "max. capaciteit", "maximale capaciteit", "maximaal", "bovengrens", "ten hoogste"),
    "cost": ("cost", "costs", "unit cost", "unit costs", "cost per unit", "price", "unit price", "freight rate", "rate")
    + ("transport cost", "transport costs", "transportation cost", "transportation costs", "tariff")
    + ("shipping cost", "shipping costs", "delivery cost", "delivery costs", "freight cost", "freight costs")
    + ("Kosten", "Stückkosten", "Kosten pro Stück", "Kosten pro Einheit", "Transportkosten", "Frachtkosten", "Preis")
    + ("coût", "coûts", "coût unitaire", "coût de transport", "prix", "tarif")
    + ("costo", "coste", "costos", "costes", "costo unitario", "coste unitario", "precio", "tarifa")
    + ("costi", "costi unitari", "costo di trasporto", "costi di trasporto", "prezzo", "prezzo unitario", "tariffa")
    + ("custo", "custos", "custo unitário", "custos unitários", "custo de transporte", "preço", "preço unitário")
    + ("stukprijs", "prijs", "prijs per stuk", "kosten per stuk", "kosten per eenheid", "tarief"),
    "x": ("x", "lon", "lng", "longitude", "east", "Längengrad", "longitud", "longitudine", "lengtegraad"),
    "y": ("y", "lat", "latitude", "north", "Breitengrad", "latitud", "latitudine", "breedtegraad"),
    "name": ("name", "arc", "road", "route", "link", "label", "id", "arc name", "Strecke", "Name", "nom", "nombre")
    + ("ruta", "Kennung", "Bezeichnung", "nome", "strada", "tratta", "percorso", "rota", "naam", "traject"),
}
"""The names that a column may have, whatever the letters' size and accents. A unit may stand behind, as in
`capacity (t)`, `cost_eur` or `cost [EUR/t]`."""

STAND_INS: Dict[str, Tuple[str, ...]] = {
    "node": ("factory", "mill", "shop", "store", "market", "retailer", "outlet", "hub", "dc")
    + ("Fabrik", "Filiale", "Markt", "Laden", "dépôt", "magasin", "marché", "fábrica", "tienda", "mercado")
    + (
        "stabilimento",
        "deposito",
        "negozio",
        "sede",
        "punto vendita",
        "nó",
        "local",
        "loja",
        "fabriek",
        "klant",
        "winkel",
    ),
    "supply": ("availability",),
    "demand": ("requirement", "requirements"),
    "from": ("van",),
    "cost": ("weight", "distance", "Entfernung", "Distanz", "distancia", "Gewicht", "poids", "peso")
    + ("distanza", "distância", "afstand"),
}
"""Names of columns that are taken where no other column is that thing, which is told."""

OF_ASSIGNMENTS: Dict[str, Tuple[str, ...]] = {
    "from": ("person", "worker", "employee", "agent", "driver", "nurse", "volunteer", "applicant", "candidate")
    + ("Mitarbeiter", "Mitarbeiterin", "Arbeiter", "Fahrer", "Bewerber")
    + ("personne", "employé", "salarié", "chauffeur", "candidat")
    + ("persona", "empleado", "trabajador", "candidato")
    + ("lavoratore", "dipendente", "addetto", "autista")
    + ("pessoa", "funcionário", "trabalhador", "empregado", "motorista")
    + ("persoon", "medewerker", "werknemer", "kandidaat"),
    "to": ("shift", "task", "job", "duty", "project")
    + ("Schicht", "Aufgabe", "Auftrag", "Dienst", "Projekt")
    + ("poste", "tâche", "projet")
    + ("turno", "tarea", "puesto", "proyecto")
    + ("compito", "attività", "mansione", "progetto")
    + ("tarefa", "projeto")
    + ("taak", "ploeg", "opdracht"),
}
"""Names of the columns of the ends of an assignment, whose two sides may change places, where no others are there."""

BY_TRADE: Dict[str, Tuple[str, ...]] = {
    "from": ("plant", "factory", "mill", "mine", "refinery", "farm", "vendor", "producer")
    + ("Werk", "Fabrik", "Hersteller", "Erzeuger")
    + ("usine", "fabrique", "producteur", "fournisseur")
    + ("fábrica", "planta", "productor", "proveedor")
    + ("stabilimento", "fabbrica", "produttore")
    + ("produtor",)
    + ("fabriek", "producent"),
    "to": ("customer", "store", "shop", "market", "consumer", "retailer", "outlet")
    + ("Kunde", "Markt", "Filiale", "Laden", "Abnehmer")
    + ("client", "magasin", "marché", "consommateur")
    + ("cliente", "tienda", "mercado", "consumidor")
    + ("negozio", "mercato", "consumatore", "punto vendita")
    + ("loja",)
    + ("klant", "winkel", "afnemer"),
    "": ("warehouse", "depot", "dc", "hub", "Lager", "Zentrallager", "entrepôt", "dépôt", "almacén", "depósito")
    + ("magazzino", "deposito", "armazém", "magazijn"),
}
"""Names of the columns of the ends of arcs by what stands there, where no others are there; '' may be either end."""

NODE_COLUMNS = ("node", "supply", "demand", "x", "y")
ARC_COLUMNS = ("from", "to", "low", "capacity", "cost", "name")
ENDS = ("node", "from", "to")
LABELS = frozenset(("x", "y", "name"))
"""What no plan depends on: where several columns match, the first word counts."""

HARMLESS = frozenset(
    (
        "comment comments note notes remark remarks region country county state zone area sector group km miles "
        "code type class mode carrier description owner contact color colour hours time duration length via zip "
        "postcode address speed lane flow "
        "kommentar bemerkung bemerkungen anmerkung notiz hinweis land bundesland gebiet typ art gruppe plz "
        "adresse dauer zeit lange farbe nr nummer "
        "commentaire commentaires remarque remarques pays departement type duree temps adresse longueur numero "
        "comentario comentarios observaciones nota notas pais provincia tipo grupo duracion tiempo direccion "
        "longitud "
        "commento commenti osservazioni regione paese provincia durata tempo indirizzo lunghezza colore "
        "observacao observacoes regiao duracao endereco comprimento cor "
        "opmerking opmerkingen regio groep duur tijd adres lengte kleur "
    ).split()
)
"""Columns that are left aside without a look at the words in their names."""

WORDY = frozenset(
    (
        "comment comments note notes remark remarks info description type class mode "
        "kommentar bemerkung bemerkungen anmerkung notiz hinweis typ art "
        "commentaire commentaires remarque remarques comentario comentarios observaciones nota notas tipo "
        "commento commenti osservazioni observacao observacoes opmerking opmerkingen "
    ).split()
)
"""Columns of which each cell is looked at, since it may say of its row what other columns have as headings."""

OF_PEOPLE = frozenset(
    (
        "age wage wages salary pay seniority experience grade rank level id "
        "alter lohn gehalt dienstjahre erfahrung stufe "
        "anciennete experience salaire niveau "
        "edad salario sueldo antiguedad experiencia nivel "
        "eta stipendio salario anzianita esperienza livello "
        "idade salario antiguidade experiencia nivel "
        "leeftijd loon salaris ervaring niveau "
    ).split()
)
"""Columns that tell something of a person, and are no task or place beside others."""

NO_SLIPS = frozenset("custom customs mass massive port portal ports producer producers score scores".split())
"""Words that are near those of columns in other languages, and are no slips of the pen."""

CLOSED = frozenset(
    (
        "closed;inactive;blocked;disabled;suspended;cancelled;canceled;forbidden;not allowed;not in use;do not use;"
        "out of service;out of order;unavailable;not available;"
        "geschlossen;gesperrt;inaktiv;verboten;ausser betrieb;nicht verfugbar;entfallt;entfallen;gestrichen;"
        "ferme;fermee;interdit;interdite;hors service;supprime;supprimee;"
        "cerrado;cerrada;prohibido;prohibida;fuera de servicio;suspendido;suspendida;"
        "chiuso;chiusa;bloccato;bloccata;vietato;vietata;sospeso;sospesa;inattivo;fuori servizio;"
        "fechado;fechada;proibido;proibida;suspenso;suspensa;inativo;bloqueado;bloqueada;fora de servico;"
        "gesloten;geblokkeerd;inactief;buiten dienst;niet beschikbaar"
    ).split(";")
)
"""What a cell says of a row that does not count."""

BOTH_WAYS = frozenset(
    (
        "both;both ways;both directions;two way;twoway;bidirectional;undirected;"
        "beide;beide richtungen;beidseitig;gegenverkehr;hin und zuruck;"
        "double sens;deux sens;les deux sens;bidirectionnel;bidirectionnelle;aller retour;"
        "ambos;ambos sentidos;doble sentido;bidireccional;ida y vuelta;"
        "entrambi;entrambe le direzioni;doppio senso;andata e ritorno;bidirezionale;"
        "ambos os sentidos;duplo sentido;ida e volta;bidirecional;beide richtingen;tweerichting;heen en terug"
    ).split(";")
)
"""What a cell says of an arc that leads both ways."""

TIMES = frozenset(
    "time hours zeit dauer duration temps duree heures tiempo duracion horas tempo durata ore duur tijd uren".split()
)
"""Columns of those that are left aside without a look that may be the time that a row is for."""

TWO_WAYS = frozenset(
    (
        "oneway both bothways bidirectional bidir directed direction undirected twoway 2way symmetric symmetrical reverse "
        "richtung einbahn sens "
        "sentido "
        "direzione senso direcao eenrichting "
        "return ruckfahrt ruckweg retour regreso ritorno retorno terugweg "
    ).split()
)
"""Columns that speak of the way back."""

SWITCHES = frozenset(
    (
        "active inactive open closed enabled disabled blocked usable status valid allowed permitted forbidden excluded "
        "exclude excluding include included including use delete deleted skip ignore ignored suspended cancelled "
        "selected chosen relevant considered eligible applicable operational "
        "aktiv inaktiv offen gesperrt sperre geschlossen gultig erlaubt zulassig verboten "
        "actif ouvert ferme statut valide autorise interdit "
        "activo abierto cerrado estado valido permitido prohibido "
        "attivo attiva aperto aperta chiuso stato valida consentito vietato "
        "ativo aberto fechado autorizado proibido "
        "actief gesloten geldig toegestaan "
    ).split()
)
"""Columns that speak of whether a row counts."""

LOSSES = frozenset(
    (
        "loss losses gain gains efficiency yield multiplier factor shrinkage leakage spoilage evaporation "
        "verlust verluste wirkungsgrad faktor ausbeute schwund effizienz "
        "perte pertes rendement facteur efficacite "
        "perdida perdidas rendimiento eficiencia merma mermas "
        "conversion umrechnung perdita perdite rendimento efficienza fattore perda perdas eficiencia fator verlies verliezen "
    ).split()
)
"""Columns that speak of what becomes less, or more, on the way."""

PARTS = frozenset(
    (
        "unit units uom currency ccy product products commodity commodities good goods item items material article sku "
        "grade quality period periods day days week weeks month quarter date year scenario variant version case "
        "hour season term run shift snapshot "
        "einheit einheiten mengeneinheit me wahrung wahrg whrg produkt ware material artikel sorte qualitat tag woche kw "
        "monat quartal datum jahr periode szenario variante stunde saison jahreszeit lauf schicht stichtag "
        "unite devise produit article qualite jour semaine mois trimestre periode scenario variante heure saison "
        "unidad moneda producto articulo calidad dia semana mes trimestre fecha ano periodo escenario variante hora "
        "temporada turno "
        "unita valuta prodotto merce articolo giorno settimana mese anno ora stagione "
        "unidade moeda produto mercadoria artigo qualidade ano cenario estacao "
        "eenheid kwaliteit dag maand kwartaal jaar uur seizoen "
    ).split()
)
"""Columns that part a table in several problems, where more than one thing stands in them."""

COSTLY = frozenset(
    (
        "fee toll charge surcharge penalty tax duty discount bonus "
        "maut gebuhr zuschlag rabatt zoll kosten fixkosten "
        "peage taxe remise recargo peaje tasa descuento fijo "
        "pedaggio tassa tasse supplemento sconto portagem pedagio taxa imposto desconto tol toeslag heffing korting "
    ).split()
)
"""Words that are no name of a column, and speak of a cost."""

EARNINGS = frozenset(
    (
        "revenue revenues profit profits margin margins earning earnings income "
        "erlos erlose gewinn gewinne marge ertrag deckungsbeitrag umsatz "
        "recette recettes benefice benefices marges "
        "ingreso ingresos beneficio beneficios ganancia margen "
        "ricavo ricavi guadagno profitto margine receita receitas lucro margem opbrengst winst "
    ).split()
)
"""Columns that speak of what a unit earns."""

SCORES = frozenset(
    (
        "score scores rating ratings points utility preference preferences skill skills "
        "punkte punktzahl bewertung note noten eignung wunsch wunsche "
        "puntos puntuacion punteggio punti pontos pontuacao voorkeur punten "
    ).split()
)
"""Words over a matrix of which more may be better."""

BESIDES = frozenset(
    (
        "used reserved booked occupied allocated committed backlog incoming inbound receipts "
        "belegt reserviert gebucht vergeben verplant ruckstand zugang zugange abgang abgange wareneingang "
        "reserve occupe engage reservado ocupado comprometido entradas "
        "usato riservato prenotato occupato usado gebruikt gereserveerd bezet "
        "shipped delivered returns geliefert retouren livre livres entregado devoluciones consegnato entregue geleverd "
    ).split()
)
"""Columns that speak of amounts that are there, or are taken, beside those of the other columns."""

LOTS = frozenset(
    (
        "lot lots lotsize batch batches batchsize moq multiple multiples pack packs packsize "
        "los losgrosse gebinde gebindegrosse mindestbestellmenge verpackungseinheit "
        "lote lotes lotto lotti partij partijgrootte "
    ).split()
)
"""Columns that say in which lots amounts go, or from which amount on."""

LABELLING = frozenset("no nr number id code name class level nummer numero klasse stufe".split())
"""Words that make a label of what would be a number otherwise, as in `lot no`."""

REPEATS = frozenset(
    (
        "trips lanes trucks lorries vehicles vans departures sailings frequency multiplicity copies "
        "fahrten spuren lkw lkws fahrzeuge abfahrten frequenz haufigkeit touren "
        "trajets voyages camions vehicules voies frequence viajes camiones vehiculos carriles frecuencia "
        "viaggi veicoli corsie frequenza viagens veiculos frequencia ritten vrachtwagens voertuigen frequentie "
    ).split()
)
"""Columns that may say how many times a capacity is there."""

CHANCES = frozenset(
    (
        "probability probabilities likelihood chance risk reliability "
        "wahrscheinlichkeit risiko ausfallrisiko zuverlassigkeit "
        "probabilite risque fiabilite probabilidad riesgo fiabilidad probabilita rischio affidabilita "
        "probabilidade risco confiabilidade kans risico waarschijnlijkheid betrouwbaarheid "
    ).split()
)
"""Columns that say how likely it is that a row counts."""

SHARES = frozenset(
    (
        "percent percentage pct share shares quota utilization utilisation prozent prozentsatz anteil auslastung "
        "pourcentage pourcent porcentaje cuota percentuale percentagem porcentagem "
    ).split()
)
"""Columns that have parts of amounts; so does one with % in its name."""

MUSTS = frozenset(
    (
        "mandatory compulsory obligatory must pflicht verpflichtend zwingend obligatorisch "
        "obligatoire obligatorio obligatoria obbligatorio obbligatoria obrigatorio obrigatoria verplicht "
    ).split()
)
"""Columns that say which rows have to be used."""

EXTRAS = frozenset(
    (
        "fuel freight handling insurance customs vat markup "
        "kraftstoff diesel fracht versicherung mehrwertsteuer mwst aufschlag "
        "carburant fret manutention assurance douane tva combustible flete seguro aduana iva "
        "carburante nolo assicurazione dogana combustivel frete alfandega brandstof vracht verzekering btw "
    ).split()
)
"""Columns that may be a part of what a unit costs, or all of it, where numbers stand there."""

THROUGHPUT = frozenset("throughput durchsatz umschlag debit caudal portata doorvoer".split())
"""Columns that may be the capacity of a node."""

TIERS = frozenset(
    "tier tiers bracket brackets break breaks threshold staffel staffelmenge tranche tranches tramo "
    "scaglione fascia faixa escalao".split()
)
RANGING = frozenset(
    "from to over above below up until von bis ab uber unter de a desde hasta da fino ate van tot vanaf".split()
)
"""Columns that speak of costs that change with the amount: by themselves, or beside a word of amounts."""

SCALES = frozenset("per;je;pe;preiseinheit;price unit;par;por;bezugsmenge;basis".split(";"))
"""Columns that say for how many units a cost is."""

LIMITING = frozenset(("load bound ").split())
"""Words that are no name of a column, and speak of a capacity."""

AMOUNTS = frozenset(
    (
        "quantity quantities qty volume volumes throughput bandwidth tonnage payload remaining "
        "menge volumen durchsatz ladung begrenzung restriktion beschrankung kontingent "
        "quantite debit contrainte "
        "cantidad caudal restriccion "
        "quantita quantidade hoeveelheid aantal "
    ).split()
)
"""Words of a column that may be the capacity where no other column is."""

QUANTITIES = frozenset(
    "quantity quantities qty volume volumes menge mengen quantite quantites cantidad cantidades quantita quantidade "
    "quantidades hoeveelheid aantal".split()
)
"""Words that say nothing beside one of an amount, as in `max. quantity`."""

OWN = (
    ("cost", ("flow", "total cost", "is full")),
    ("unit cost", ("flow", "cost", "is full")),
    ("unit cost", ("flow", "cost", "full")),
)
"""The tables of plans that `write_plan`, `Plan.to_frame` and `report.to_json` write: each by the column that has what a
unit costs, and the columns that tell of the flow. Where all of one are there, these are left aside."""

OWN_OF_NODES = ("kept", "not met", "price")
"""What `Plan.nodes_to_frame` tells of the nodes of a plan, beside their supplies."""

FIXED = frozenset(
    "fixed fix setup fixkosten fixe fixes fixo fixa fijo fija fijos fisso fissa fissi pauschale grundpreis grundgebuhr "
    "forfait vast vaste".split()
)
"""Columns that speak of what is paid once, however much flows."""

PERIODS = frozenset(
    (
        "jan feb mar apr may jun jul aug sep sept oct nov dec january february march april june july august september "
        "october november december mon tue tues wed thu thur thurs fri sat sun monday tuesday wednesday thursday friday "
        "saturday sunday "
        "januar februar marz mai juni juli oktober dezember okt dez montag dienstag mittwoch donnerstag freitag samstag "
        "sonntag "
        "janvier fevrier mars avril juin juillet aout septembre octobre novembre decembre lundi mardi mercredi jeudi "
        "vendredi samedi dimanche "
        "enero febrero marzo abril mayo junio julio agosto septiembre octubre noviembre diciembre lunes martes miercoles "
        "jueves viernes sabado domingo "
        "gennaio febbraio aprile maggio giugno luglio settembre ottobre dicembre lunedi martedi mercoledi giovedi venerdi "
        "sabato domenica "
        "janeiro fevereiro marco maio junho julho setembro outubro novembro dezembro segunda terca quarta quinta sexta "
        "januari februari maart mei augustus maandag dinsdag woensdag donderdag vrijdag zaterdag zondag "
    ).split()
)
"""Names of months and of days of the week."""

DITTO = frozenset(('"', "''", "\u2033", "\u3003", "\u201c", "\u201d", "dito", "ditto", "idem"))
"""What stands in a cell for the name above it."""

SUMS = frozenset(
    (
        "total;totals;sum;sums;grand total;subtotal;sub total;summe;gesamt;insgesamt;gesamtsumme;zwischensumme;ergebnis;"
        "gesamtergebnis;teilergebnis;somme;sous total;total general;suma;suma total;σ;∑;"
        "totale;totali;somma;soma;total geral;subtotale;totaal;som;eindtotaal;subtotaal;all;overall"
    ).split(";")
)
"""Names of rows that hold sums of the others."""

DEMANDING = frozenset(
    (
        "demand sink destination consumer customer buyer receiver "
        "bedarf senke kunde abnehmer verbraucher empfanger "
        "demande puits client consommateur destinataire "
        "demanda sumidero cliente consumidor destinatario "
        "domanda consumatore procura vraag afnemer klant "
    ).split()
)
"""What a cell says of a node that demands, in a column that the supplies stand beside."""
