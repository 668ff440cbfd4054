"use strict";
(function () {
  var data = JSON.parse(document.getElementById("data").textContent);
  var slider = document.getElementById("slider");
  var commands = document.querySelectorAll("#commands tbody tr");

  function element(name, text, kind) {
    var made = document.createElement(name);
    made.textContent = text;
    if (kind) { made.className = kind; }
    return made;
  }

  function inShort(places) {
    return (places.length < 4 ? places : places.slice(0, 2).concat("… " + places[places.length - 1])).join(", ");
  }

  function fill(table, lines) {
    var body = document.querySelector("#" + table + " tbody");
    body.textContent = "";
    lines.forEach(function (line) {
      var row = document.createElement("tr");
      var words = element("td", "", line[5] ? "words made" : "words");
      words.style.setProperty("--depth", line[2] - 1);
      if (line[3]) {
        words.append(element("span", line[3], /^[0-9]+$/.test(line[3]) ? "mark" : "mark " + line[3]), " ");
      }
      words.append(line[4]);
      var place = element("td", inShort(line[0]), "place");
      place.title = line[0].join(" ");
      row.append(place, element("td", line[1], "own"), words);
      body.append(row);
    });
  }

  function tell(list, what, words, kind) {
    list.append(element("dt", what), element("dd", words, kind));
  }

  function listOf(words) {
    return words.length ? words.join(", ") : "none";
  }

  function showInstant(instant) {
    var list = document.getElementById("instant");
    list.textContent = "";
    if (!instant) {
      tell(list, "bay", "fresh: the first instant begins the sequence");
      return;
    }
    tell(list, "code", instant.code + (instant.error ? ", " + instant.error : ""), instant.error ? "wrong" : "");
    tell(list, "input", listOf(instant.input));
    tell(list, "emitted", listOf(instant.emitted));
    if (instant.litres) { tell(list, "litres", instant.litres); }
    if (instant.waits) { tell(list, "then waits at", listOf(instant.waits)); }
    tell(list, "takes", instant.reactions);
  }

  function showRest(instant) {
    var rest = !instant ? { struck: [], remains: data.fresh } : instant.rest === null ? null : data.rests[instant.rest];
    var rewrites = data.how === "remains";
    document.getElementById("rest-title").textContent = rewrites ? "What remains on paper" : "What the next instant reacts with";
    var made = rest && rest.remains.some(function (line) { return line[5]; });
    document.getElementById("rest-note").textContent = !rest ? "Nothing remains: the bay is over."
      : (rewrites ? "" : "By the labels: a sequence with setpause has no paper. ")
        + (made ? "What is slanted was made for the command at its place, and has no bytes." : "");
    fill("remains", rest ? rest.remains : []);
    fill("struck", rest ? rest.struck : []);
    document.getElementById("struck-title").hidden = !rest || !rest.struck.length;
  }

  function markCommands(instant) {
    commands.forEach(function (row) {
      var waits = instant && instant.labels && row.dataset.label && instant.labels.indexOf(Number(row.dataset.label)) >= 0;
      var wrong = instant && instant.place !== null && row.dataset.places.split(" ").indexOf(String(instant.place)) >= 0;
      row.className = wrong ? "wrong" : waits ? "waits" : "";
    });
  }

  function moveCursor(at) {
    var cursor = document.getElementById("cursor"), scroll = document.getElementById("scroll");
    cursor.setAttribute("x", data.cell * (at - 1));
    cursor.style.visibility = at ? "visible" : "hidden";
    if (at && (data.cell * at > scroll.scrollLeft + scroll.clientWidth || data.cell * (at - 1) < scroll.scrollLeft)) {
      scroll.scrollLeft = data.cell * at - scroll.clientWidth / 2;
    }
  }

  function show(at) {
    at = Math.max(0, Math.min(data.instants.length, at || 0));
    var instant = data.instants[at - 1];
    slider.value = at;
    document.getElementById("where").textContent = at ? "instant " + at + " of " + data.instants.length : "before the first instant";
    showInstant(instant);
    showRest(instant);
    markCommands(instant);
    moveCursor(at);
  }

  function step(by) {
    return function () { show(Number(slider.value) + by); };
  }

  slider.addEventListener("input", function () { show(Number(slider.value)); });
  document.getElementById("back").addEventListener("click", step(-1));
  document.getElementById("on").addEventListener("click", step(1));
  document.getElementById("picture").addEventListener("click", function (event) {
    show(Math.floor((event.clientX - this.getBoundingClientRect().left) / data.cell) + 1);
  });
  window.addEventListener("hashchange", function () { show(Number(location.hash.slice(1))); });
  show(Number(location.hash.slice(1)));
}());
