// Every text that the page shows, in each of its languages: the browser's language chooses. A text that has values in it is a function of them.
// The reasons of refusals, and the words of the import, are those of the commands (refusals.js, import_rules.js) in English, and here in German.
import { WORDS } from "./import_rules.js";
import { WHY } from "./refusals.js";

const some = (count, one, many) => `${count} ${count === 1 ? one : many}`;

const EN = {
    title: "Map", map: "The map", zoomIn: "Zoom in", zoomOut: "Zoom out", logIn: "Log in",
    here: "Where I am", hereWithin: metres => `here, within ${some(metres, "metre", "metres")}`,
    hereRefused: "the browser doesn't tell the page where you are: allow it in its settings", hereUnknown: "the browser doesn't know where you are",
    newPoint: "New point", newLine: "New line", newArea: "New area",
    search: "Search", searchFor: "Id, or text in view", find: "Find", layers: "Layers", backdrop: "Backdrop",

    printMap: "Print …", print: "Print", printTitle: "title", paper: "paper", orientation: "sides", landscape: "landscape", portrait: "portrait",
    scale: "scale",
    printHelp: "The blue frame shows what is printed. For a PDF choose that as the printer. Print in the actual size (100 %), so that the scale is right.",
    drawsPage: "the page is being drawn", pageIsDrawn: "the page is drawn", inTheMiddle: "(in the middle)",

    keys: "Arrows move the map, with Shift a little; plus and minus zoom. Enter selects what is at the cross in the middle. Find without a text lists what "
        + "is in view.",
    nothingHere: "nothing is at the cross", nothingInView: "nothing is in view",

    edit: "Edit", delete: "Delete", save: "Save", cancel: "Cancel", done: "Done", close: "Close", undo: "Undo", removePoint: "Remove point",
    piece: "A large feature, which the import cut into pieces.",
    found: count => `${count} found`, more: count => `and ${count} more`,
    nothingHas: text => `nothing in view has "${text}"`, noId: ", and no feature has this id",
    finishFirst: "save or cancel what you edit first",
    logInToEdit: "view only: log in to edit the map", mayNotEdit: "view only: this machine may not edit the map",
    mayNotEditNow: "this machine may not edit the map any more",
    seen: (features, edits) => `${features} features, edit ${edits}`,
    overtaken: "somebody else has just changed what you edit: when you save, you see both",
    asksAgain: why => `${why}: the page asks again`, noTile: why => `a tile can't be read: ${why}`,

    deletedByOthers: "somebody else has deleted this feature",
    clickWhere: "Click where it is", drawingEnds: "A double click or Enter ends it, Backspace removes the last point.",
    editOf: (layer, id) => `Edit ${layer} ${id}`, newFeature: "New feature", deleteIt: "Delete it", deletes: (layer, id) => `Delete ${layer} ${id}?`,
    shapeHelp: "Drag a point to move it, or a small one to add it; a right click removes it, Ctrl+Z undoes. A point snaps to a neighbour's, but not "
        + "with Alt.",
    keysOfPoint: "With the keyboard: arrows on the map, the space bar adds a point at the cross.",
    keysOfShape: "With the keyboard, on the map: Page Down goes to the next point, the space bar takes it, arrows move it, the space bar puts it down, Delete "
        + "removes it.",
    held: "the point is taken: arrows move it, the space bar puts it down, Escape puts it back", noCorner: "no point is at the cross: Page Down goes to one",
    putDown: "the point is put down", takenBack: "taken back", nothingToUndo: "there is nothing to undo",
    cornerOf: (number, count) => `point ${number} of ${count}`, removed: shape => `the point is removed: ${shape}`,
    tooFew: "the point stays: too few would be left", chooseFirst: "touch the point first that is to go",
    cutShape: count => `The import cut it into ${count} pieces. Its shape can be changed by a desktop GIS (vtmap checkout).`,
    pieces: count => `${count} pieces`,
    tooLarge: "MapLibre draws it wrong: it is larger than a tile of its last zoom. The import cuts such features.",
    along: "Corners that neighbours share move along",
    unchanged: (layer, id) => `${layer} ${id} is as it was: nothing was saved`,
    saved: (id, others, edit) => `feature ${id} saved${others ? ` with ${others} more` : ""}, edit ${edit}`,
    neighbourChanged: id => `somebody else has just changed feature ${id}, which moves along: save again`,
    neighbourLost: "a neighbour would lose its shape",
    count: {
        points: count => some(count, "point", "points"), lines: count => some(count, "line", "lines"), polygons: count => some(count, "area", "areas"),
    },

    history: "History", historyOf: (layer, id) => `History of ${layer} ${id}`, noHistory: "no history is kept here, or its gateway doesn't run",
    wasMade: "new", wasChanged: "changed", wasDeleted: "deleted", wasPut: "put",
    byWhom: (when, who, edit) => `${when}, by ${who}, edit ${edit}`, nobodyKnown: "somebody", between: (from, to) => `between ${from} and ${to}`,
    putBackBefore: "Put back what was before", putBefore: when => `before ${when}`, putsBack: (layer, id) => `Put ${layer} ${id} back?`, putItBack: "Put it back",
    isSo: "it is like that now", isLost: id => `${id} isn't on the map any more`, noChanges: "nothing has been changed since the log of edits began",
    moreChanges: "older changes: vtmap log", cutHistory: "The import cut it into pieces: vtmap undo takes its changes back.",
    missedEdits: (first, last, when) => `edits ${first} to ${last} are missing in the log (${when})`,

    isMade: "The map of that time is made …", isPast: edit => `view only: the map after edit ${edit}`, mapOf: when => `The map of ${when}.`,
    mapAfter: edit => `The map after edit ${edit}.`, goToNow: "Go to the map of now", noPast: "no maps of earlier times are kept here (vtmap serve-at)",

    layer: "layer", firstZoom: "first zoom", lastZoom: "last zoom", shape: "shape", tag: "tag", value: "value", kindOfValue: "kind of value",
    tagNamed: name => `tag ${name}`, addTag: "Add a tag", removeTag: name => `Remove the tag ${name}`,
    addFile: "Photo or file …", openFile: name => `open ${name}`, noPicture: "the picture isn't there, or isn't for you to see",
    fileRefusals: {
        404: "this map keeps no photos and files: ask the administrator", 413: "the file is too large: 20 MiB at the most",
        415: "it is no picture (JPEG, PNG, GIF, WebP) and no PDF", 502: "this map keeps no photos and files: ask the administrator",
        507: "there is no room for files: tell the administrator",
    },
    text: "text", number: "number", yesNo: "yes/no", yes: "yes", no: "no",
    noInteger: (what, shown) => `${what}: "${shown}" is no whole number`, twice: name => `two tags have the name ${name}`,

    // The words of vtmap for what a schema refuses, and for a file that came short.
    noType: { text: "no text", integer: "no integer", number: "no number", boolean: "no boolean", date: "no date" },
    isNo: (name, value, noType) => `${name} is ${value}, ${noType}`, isNoChoice: (name, value, choices) => `${name} is ${value}: ${choices} is needed`,
    oneOf: names => `one of ${names}`, isRequired: name => `${name} is required`,
    noField: (layer, name, words) => `${layer} has no field ${name}: \`vtmap schema add ${words}\` makes it`,
    noFields: (layer, names, words) => `${layer} has no field ${names}: \`vtmap schema add ${words}\` makes them`,
    noFieldByHand: (layer, names) => `${layer} has no field ${names}: its schema.json may get it`,
    requiredMark: "* is required", noDay: "half a day", otherLayer: "another layer …", putWithout: "Put them without these fields",
    bySchema: (first, last, layer) => `${layer}: they are shown at zooms ${first} to ${last}, as the schema has it`,
    seemsCut: (name, why) => `${name} seems to be cut: ${why}. Get all of it, or say that it is whole`, itIsWhole: "It is whole",
    noLineEnd: text => `its last line has no end, and its first one has one (${text})`, noFieldEnd: text => `its last field has no end (${text})`,
    tooFewFields: (count, columns, text) => `its last line has ${count} of the ${columns} fields of its head (${text})`,

    changedByTwo: (layer, id) => `Changed by two: ${layer} ${id}`,
    othersDeleted: "Somebody else has deleted this feature meanwhile.", othersChanged: "Somebody else has changed this feature meanwhile.",
    chooseParts: "Somebody else has changed this feature meanwhile. Nothing of yours is saved yet: choose for each part that differs.",
    putBack: "Put mine back", leaveDeleted: "Leave it deleted", deleteAllTheSame: "Delete it all the same", keepIt: "Keep it",
    before: "before", onTheMap: "on the map (blue)", yours: "yours (red)",
    choose: part => `choose a value of ${part}`, saveChosen: "Save what is chosen", keepTheirs: "Keep theirs",

    file: "File …", fileOf: (name, count) => `${name}: ${some(count, "feature", "features")}`, features: "features",
    fileHelp: "They are on the map once they are sent, as new features: nothing is overwritten.", sendAll: count => `Send ${count}`,
    notesOf: (note, count) => `${note}: ${some(count, "feature", "features")}`, refusedAt: (at, why) => `feature of the file ${at} refused: ${why}`,
    noFile: "the page reads GeoJSON, CSV, GPX and KML; vtmap import reads more", noGeojson: "it is no GeoJSON",
    noDegrees: system => `its coordinates are of ${system}: the page reads longitudes and latitudes alone; vtmap import reads others`,
    noColumns: names => `it has no columns lon and lat of longitudes and latitudes (it has ${names}); vtmap import reads others by --x and --y`,
    noNumbers: "its coordinates aren't those of its kind of geometry", notUtf8: "texts aren't UTF-8 and are read as Windows-1252",
    tooLargeToCut: "it is larger than a tile of its last zoom: vtmap import cuts it, or a smaller last zoom shows it whole",
    tooLargeFile: (name, most) => `${name} is too large for the page, which reads ${most}: use vtmap import`, nothingToSend: "nothing of the file can be sent",
    isSaid: (name, value) => `its ${name} is '${value}'`, and: " and ",
    sending: (count, all) => `sent ${count} of ${all}`, sentOf: (name, count) => `${name}: ${some(count, "feature", "features")} sent`,
    sentAs: (edits, first, last) => `edits ${edits}, features ${first} to ${last}`,
    takeAllBack: "Take it all back", tookBack: (count, kept) => `${some(count, "feature", "features")} taken back`
        + (kept ? `; ${some(kept, "stays", "stay")}, since somebody has changed ${kept === 1 ? "it" : "them"}` : ""),
    import: WORDS,

    noAnswer: "the server doesn't answer", noAnswerOf: status => `the server doesn't answer (${status})`,
    madeOrNot: "the server doesn't answer: the edit may be made or not. Save again: it isn't made twice",
    rounds: "it has a number that this browser would round: use a newer browser",
    refusals: WHY,
};

const DE = {
    title: "Karte", map: "Die Karte", zoomIn: "Vergrößern", zoomOut: "Verkleinern", logIn: "Anmelden",
    here: "Wo ich bin", hereWithin: metres => `hier, auf ${some(metres, "Meter", "Meter")} genau`,
    hereRefused: "der Browser sagt der Seite nicht, wo du bist: in seinen Einstellungen erlauben", hereUnknown: "der Browser weiß nicht, wo du bist",
    newPoint: "Neuer Punkt", newLine: "Neue Linie", newArea: "Neue Fläche",
    search: "Suche", searchFor: "Nummer, oder Text im Bild", find: "Suchen", layers: "Ebenen", backdrop: "Hintergrund",

    printMap: "Drucken …", print: "Drucken", printTitle: "Titel", paper: "Papier", orientation: "Seiten", landscape: "quer", portrait: "hoch",
    scale: "Maßstab",
    printHelp: "Der blaue Rahmen zeigt, was gedruckt wird. Für ein PDF dieses als Drucker wählen. In wirklicher Größe (100 %) drucken, damit der Maßstab stimmt.",
    drawsPage: "die Seite wird gezeichnet", pageIsDrawn: "die Seite ist gezeichnet", inTheMiddle: "(in der Mitte)",

    keys: "Pfeiltasten bewegen die Karte, mit Umschalt ein wenig; Plus und Minus zoomen. Enter wählt aus, was am Kreuz in der Mitte ist. Suchen ohne Text "
        + "zählt auf, was im Bild ist.",
    nothingHere: "am Kreuz ist nichts", nothingInView: "im Bild ist nichts",

    edit: "Bearbeiten", delete: "Löschen", save: "Speichern", cancel: "Abbrechen", done: "Fertig", close: "Schließen", undo: "Zurücknehmen",
    removePoint: "Punkt entfernen",
    piece: "Ein großes Objekt, das der Import in Stücke geteilt hat.",
    found: count => `${count} gefunden`, more: count => `und ${count} weitere`,
    nothingHas: text => `nichts im Bild hat „${text}“`, noId: ", und kein Objekt hat diese Nummer",
    finishFirst: "erst speichern oder abbrechen, was in Arbeit ist",
    logInToEdit: "nur ansehen: zum Bearbeiten anmelden", mayNotEdit: "nur ansehen: dieser Rechner darf die Karte nicht bearbeiten",
    mayNotEditNow: "dieser Rechner darf die Karte nicht mehr bearbeiten",
    seen: (features, edits) => `${some(features, "Objekt", "Objekte")}, Änderung ${edits}`,
    overtaken: "jemand anderes hat eben geändert, was du bearbeitest: beim Speichern siehst du beides",
    asksAgain: why => `${why}: die Seite fragt wieder nach`, noTile: why => `eine Kachel ist nicht zu lesen: ${why}`,

    deletedByOthers: "jemand anderes hat dieses Objekt gelöscht",
    clickWhere: "Klick, wo es ist", drawingEnds: "Ein Doppelklick oder Enter beendet es, die Rücktaste entfernt den letzten Punkt.",
    editOf: (layer, id) => `${layer} ${id} bearbeiten`, newFeature: "Neues Objekt", deleteIt: "Wirklich löschen", deletes: (layer, id) => `${layer} ${id} löschen?`,
    shapeHelp: "Einen Punkt ziehen verschiebt ihn, einen kleinen ziehen fügt ihn hinzu; ein Rechtsklick entfernt ihn, Strg+Z nimmt zurück. Ein Punkt "
        + "rastet auf dem eines Nachbarn ein, mit Alt nicht.",
    keysOfPoint: "Mit der Tastatur: Pfeiltasten auf der Karte, die Leertaste setzt einen Punkt am Kreuz.",
    keysOfShape: "Mit der Tastatur, auf der Karte: Bild ab geht zum nächsten Punkt, die Leertaste nimmt ihn, Pfeiltasten bewegen ihn, die Leertaste legt ihn "
        + "ab, Entf entfernt ihn.",
    held: "der Punkt ist gefasst: Pfeiltasten bewegen ihn, die Leertaste legt ihn ab, Esc legt ihn zurück",
    noCorner: "am Kreuz ist kein Punkt: Bild ab geht zu einem",
    putDown: "der Punkt ist abgelegt", takenBack: "zurückgenommen", nothingToUndo: "es gibt nichts zurückzunehmen",
    cornerOf: (number, count) => `Punkt ${number} von ${count}`, removed: shape => `der Punkt ist entfernt: ${shape}`,
    tooFew: "der Punkt bleibt: es wären zu wenige", chooseFirst: "erst den Punkt berühren, der weg soll",
    cutShape: count => `Der Import hat es in ${count} Stücke geteilt. Seine Form lässt sich in einem GIS ändern (vtmap checkout).`,
    pieces: count => some(count, "Stück", "Stücke"),
    tooLarge: "MapLibre zeichnet es falsch: es ist größer als eine Kachel seiner letzten Zoomstufe. Der Import teilt solche Objekte.",
    along: "Gemeinsame Ecken der Nachbarn ziehen mit",
    unchanged: (layer, id) => `${layer} ${id} ist wie zuvor: nichts wurde gespeichert`,
    saved: (id, others, edit) => `Objekt ${id} gespeichert${others ? ` mit ${others} weiteren` : ""}, Änderung ${edit}`,
    neighbourChanged: id => `jemand anderes hat eben Objekt ${id} geändert, das mitzieht: noch einmal speichern`,
    neighbourLost: "ein Nachbar verlöre seine Form",
    count: {
        points: count => some(count, "Punkt", "Punkte"), lines: count => some(count, "Linie", "Linien"), polygons: count => some(count, "Fläche", "Flächen"),
    },

    history: "Verlauf", historyOf: (layer, id) => `Verlauf von ${layer} ${id}`, noHistory: "hier wird kein Verlauf geführt, oder sein Gateway läuft nicht",
    wasMade: "neu", wasChanged: "geändert", wasDeleted: "gelöscht", wasPut: "gesetzt",
    byWhom: (when, who, edit) => `${when}, von ${who}, Änderung ${edit}`, nobodyKnown: "jemandem", between: (from, to) => `zwischen ${from} und ${to}`,
    putBackBefore: "Zurück auf den Stand davor", putBefore: when => `vor ${when}`, putsBack: (layer, id) => `${layer} ${id} zurücksetzen?`,
    putItBack: "Zurücksetzen", isSo: "so ist es jetzt schon", isLost: id => `${id} ist nicht mehr auf der Karte`,
    noChanges: "nichts wurde geändert, seit das Protokoll der Änderungen begann", moreChanges: "ältere Änderungen: vtmap log",
    cutHistory: "Der Import hat es in Stücke geteilt: vtmap undo nimmt seine Änderungen zurück.",
    missedEdits: (first, last, when) => `die Änderungen ${first} bis ${last} fehlen im Protokoll (${when})`,

    isMade: "Die Karte von damals wird angelegt …", isPast: edit => `nur ansehen: die Karte nach Änderung ${edit}`, mapOf: when => `Die Karte von ${when}.`,
    mapAfter: edit => `Die Karte nach Änderung ${edit}.`, goToNow: "Zur Karte von jetzt", noPast: "Karten früherer Zeiten gibt es hier nicht (vtmap serve-at)",

    layer: "Ebene", firstZoom: "erste Zoomstufe", lastZoom: "letzte Zoomstufe", shape: "Form", tag: "Merkmal", value: "Wert",
    kindOfValue: "Art des Werts", tagNamed: name => `Merkmal ${name}`, addTag: "Merkmal hinzufügen", removeTag: name => `Das Merkmal ${name} entfernen`,
    addFile: "Foto oder Datei …", openFile: name => `${name} öffnen`, noPicture: "das Bild ist nicht da, oder nicht für dich zu sehen",
    fileRefusals: {
        404: "diese Karte behält keine Fotos und Dateien: die Verwaltung fragen", 413: "die Datei ist zu groß: höchstens 20 MiB",
        415: "es ist kein Bild (JPEG, PNG, GIF, WebP) und kein PDF", 502: "diese Karte behält keine Fotos und Dateien: die Verwaltung fragen",
        507: "für Dateien ist kein Platz: der Verwaltung sagen",
    },
    text: "Text", number: "Zahl", yesNo: "ja/nein", yes: "ja", no: "nein",
    noInteger: (what, shown) => `${what}: „${shown}“ ist keine ganze Zahl`, twice: name => `zwei Merkmale haben den Namen ${name}`,

    noType: { text: "kein Text", integer: "keine ganze Zahl", number: "keine Zahl", boolean: "weder ja noch nein", date: "kein Datum" },
    isNo: (name, value, noType) => `${name} ist ${value}, ${noType}`, isNoChoice: (name, value, choices) => `${name} ist ${value}: nötig ist ${choices}`,
    oneOf: names => `eines von ${names}`, isRequired: name => `${name} ist nötig`,
    noField: (layer, name, words) => `${layer} hat kein Feld ${name}: \`vtmap schema add ${words}\` legt es an`,
    noFields: (layer, names, words) => `${layer} hat kein Feld ${names}: \`vtmap schema add ${words}\` legt sie an`,
    noFieldByHand: (layer, names) => `${layer} hat kein Feld ${names}: seine schema.json kann es bekommen`,
    requiredMark: "* ist nötig", noDay: "ein halbes Datum", otherLayer: "andere Ebene …", putWithout: "Ohne diese Felder anlegen",
    bySchema: (first, last, layer) => `${layer}: zu sehen auf den Zoomstufen ${first} bis ${last}, wie das Schema es sagt`,
    seemsCut: (name, why) => `${name} ist wohl abgeschnitten: ${why}. Ganz holen, oder sagen, dass sie vollständig ist`, itIsWhole: "Sie ist vollständig",
    noLineEnd: text => `die letzte Zeile hat kein Ende, die erste hat eines (${text})`, noFieldEnd: text => `das letzte Feld hat kein Ende (${text})`,
    tooFewFields: (count, columns, text) => `die letzte Zeile hat ${count} der ${columns} Felder der ersten (${text})`,

    changedByTwo: (layer, id) => `Von zweien geändert: ${layer} ${id}`,
    othersDeleted: "Jemand anderes hat dieses Objekt inzwischen gelöscht.", othersChanged: "Jemand anderes hat dieses Objekt inzwischen geändert.",
    chooseParts: "Jemand anderes hat dieses Objekt inzwischen geändert. Von dir ist noch nichts gespeichert: wähle bei jedem Teil, der sich unterscheidet.",
    putBack: "Meines wieder anlegen", leaveDeleted: "Gelöscht lassen", deleteAllTheSame: "Trotzdem löschen", keepIt: "Behalten",
    before: "vorher", onTheMap: "auf der Karte (blau)", yours: "deines (rot)",
    choose: part => `wähle einen Wert: ${part}`, saveChosen: "Gewähltes speichern", keepTheirs: "Das andere behalten",

    file: "Datei …", fileOf: (name, count) => `${name}: ${some(count, "Objekt", "Objekte")}`, features: "Objekte",
    fileHelp: "Auf der Karte sind sie, wenn sie gesendet sind, als neue Objekte: nichts wird überschrieben.", sendAll: count => `${count} senden`,
    notesOf: (note, count) => `${note}: ${some(count, "Objekt", "Objekte")}`, refusedAt: (at, why) => `Objekt ${at} der Datei abgelehnt: ${why}`,
    noFile: "die Seite liest GeoJSON, CSV, GPX und KML; vtmap import liest mehr", noGeojson: "das ist kein GeoJSON",
    noDegrees: system => `seine Koordinaten sind in ${system}: die Seite liest nur Längen und Breiten; vtmap import liest auch andere`,
    noColumns: names => `es hat keine Spalten lon und lat mit Längen und Breiten (es hat ${names}); vtmap import liest andere mit --x und --y`,
    noNumbers: "seine Koordinaten sind nicht die seiner Art von Geometrie", notUtf8: "Texte sind nicht UTF-8 und werden als Windows-1252 gelesen",
    tooLargeToCut: "es ist größer als eine Kachel seiner letzten Zoomstufe: vtmap import teilt es, oder eine kleinere letzte Zoomstufe zeigt es ganz",
    tooLargeFile: (name, most) => `${name} ist zu groß für die Seite, die ${most} liest: vtmap import nehmen`,
    nothingToSend: "von der Datei lässt sich nichts senden",
    isSaid: (name, value) => `${name} ist '${value}'`, and: " und ",
    sending: (count, all) => `${count} von ${all} gesendet`, sentOf: (name, count) => `${name}: ${some(count, "Objekt", "Objekte")} gesendet`,
    sentAs: (edits, first, last) => `Änderungen ${edits}, Objekte ${first} bis ${last}`,
    takeAllBack: "Alles zurücknehmen", tookBack: (count, kept) => `${some(count, "Objekt", "Objekte")} zurückgenommen`
        + (kept ? `; ${some(kept, "bleibt", "bleiben")}, weil jemand ${kept === 1 ? "es" : "sie"} geändert hat` : ""),
    import: {
        heights: "Höhen (Z) fallen weg",
        dropped: "das Feld {name} fällt weg: {what} ist kein Wert eines Merkmals",
        list: "eine Liste oder ein Objekt",
        nowhere: "sie haben keine Geometrie und werden nicht angelegt",
        noKind: "{kind} ist keine Art von Geometrie, die ein Objekt hat",
        outside: "ein Punkt liegt außerhalb der Welt (180 Grad nach Osten und Westen, 85,05 nach Norden und Süden)",
        twoNumbers: "{told}: zwei Zahlen sind nötig, wie 7.25 oder 7,25, ohne Tausendertrennzeichen",
    },

    noAnswer: "der Server antwortet nicht", noAnswerOf: status => `der Server antwortet nicht (${status})`,
    madeOrNot: "der Server antwortet nicht: die Änderung ist gemacht oder nicht. Noch einmal speichern: sie wird nicht zweimal gemacht",
    rounds: "darin ist eine Zahl, die dieser Browser runden würde: ein neuerer Browser hilft",
    refusals: {
        Json: "der Inhalt ist kein JSON",
        Body: "der Inhalt hat über 65.536 Bytes",
        "E1 Member": "ein Teil fehlt, ist unbekannt oder von anderer Art",
        "E3 Layer": "der Name der Ebene hat nicht 1 bis 64 Bytes",
        "E4 Zoom": "Zoomstufen gehen von 0 bis 19, die erste höchstens gleich der letzten",
        "E5 Geometry": "eine Linie, ein Ring oder eine Liste ist zu kurz oder hat über 65.535 Teile",
        "E6 Tags": "über 64 Merkmale, oder ein Name hat nicht 1 bis 64 Bytes",
        "E7 Value": "ein Text eines Merkmals hat über 1.024 Bytes, oder eine Zahl liegt nicht zwischen -2^63 und 2^64 - 1",
        "E8 Long": "der Text des Objekts hat über 32.768 Bytes: weniger Punkte oder kürzere Texte helfen",
        "E9 Reach": "es bedeckt über 262.144 Kacheln: mit einer größeren Zoomstufe beginnen oder mit einer kleineren enden",
        JournalFull: "kein Platz für Änderungen, bis die Karte veröffentlicht ist: veröffentlichen oder der Verwaltung sagen, und noch einmal",
        AreaFull: "die Karte passt nicht mehr auf ihren Datenträger: heute noch der Verwaltung sagen",
        TooManyTiles: "die Karte hat zu viele Kacheln für ein Archiv: heute noch der Verwaltung sagen",
        NeedsUpgrade: "der Datenträger des Servers hat Version 1: der Verwaltung sagen",
        Device: "der Datenträger des Servers hat versagt: die letzte Änderung ist gespeichert oder nicht: sofort der Verwaltung sagen. Was bestätigt wurde, "
            + "ist sicher",
        Broken: "der Datenträger des Servers hat vorhin versagt: sofort der Verwaltung sagen. Was bestätigt wurde, ist sicher",
        NumbersSpent: "der Server kann keine weitere Änderung annehmen: der Verwaltung sagen",
        Standby: "nichts wurde geändert: kein zweiter Rechner hat gerade die letzten Änderungen der Karte: in einer Minute noch einmal versuchen, und "
            + "wenn das nicht hilft, der Verwaltung sagen",
        Memory: "der Server hat keinen Speicher frei: später noch einmal versuchen, und der Verwaltung sagen",
        401: "Name und Passwort sind nötig: auf Anmelden drücken und die eingeben, die du von der Verwaltung hast",
        403: "der Proxy vor dem Server lässt diesen Rechner die Karte nicht bearbeiten: die Verwaltung bitten, ihn zuzulassen",
        404: "der Server oder der Proxy davor hat diesen Pfad nicht: der Server nimmt hier keine Änderungen an: er braucht --admin",
        413: "das Objekt ist zu lang für eine Anfrage: mit vtmap checkout und vtmap checkin ändern",
        421: "der Proxy vor dem Server kennt diesen Namen nicht: die Adresse nehmen, die du von der Verwaltung hast, oder darum bitten, den Namen aufzunehmen",
        429: "zu viele Abrufe des Archivs auf einmal: noch einmal versuchen, wenn einer zu Ende ist",
        502: "der Server läuft nicht, oder startet gerade: noch einmal versuchen, und sonst der Verwaltung sagen",
        503: "der Server läuft nicht, oder startet gerade: noch einmal versuchen, und sonst der Verwaltung sagen",
        504: "der Proxy vor dem Server hat zu lange auf ihn gewartet: noch einmal versuchen",
    },
};

export const LANGUAGES = { en: EN, de: DE };

/** The first of a browser's languages that the page has, or English. */
export function languageOf(wanted) {
    return wanted.map(name => name.toLowerCase().split("-")[0]).find(name => Object.hasOwn(LANGUAGES, name)) ?? "en";
}

export const language = languageOf(globalThis.navigator?.languages ?? []);
export const texts = LANGUAGES[language];
