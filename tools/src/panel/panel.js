"use strict";

// A panel for one sheet: the person sets the switches of one side, turn by turn, and the side
// that has the strategy answers by its functions. All that is shown is worked out here, from
// the rows of the matrix and of the functions.
(() => {
  // Switches whose plays are in the table: 256 of them.
  const MOST_FREE = 8;
  const MOST_ROWS_OPEN = 40;
  const MOST_AT_ONCE = 24;
  const MOST_LISTED = 8;
  const LONG_FUNCTION = 240;

  const SIDES = {
    "exists": {
      name: "the valves",
      turn: "The valves are set",
      own: "valve",
      wins: "Whatever the press sends, the valves make it hold.",
      play: "You are the press.",
    },
    "for all": {
      name: "the press",
      turn: "The press sends",
      own: "signal",
      wins: "However the valves are set, the press makes it fail.",
      play: "You set the valves.",
    },
  };
  const ORIGINS = {
    found: "The functions are those of the proved operation.",
    wins: "The functions were handed in, and the proved operations say that they win.",
    loses: "The functions were handed in, and the proved operations say that they lose.",
    open: "The functions were handed in, and the proved operations had no room to say whether they win.",
  };
  const OTHER = { "exists": "for all", "for all": "exists" };
  const SIGNS = { true: "✓", false: "✗", open: "○" };
  const STATES = { true: "holds", false: "fails", open: "open" };

  const find = (id) => document.getElementById(id);
  const data = JSON.parse(find("data").textContent);
  const prefix = data.prefix;
  const strategist = SIDES[data.side];
  const person = SIDES[OTHER[data.side]];
  const matrix = tree(data.matrix);
  const functions = data.functions.map((given) => ({ ...given, tree: tree(given.rows) }));

  // Which variables the strategy answers with; the person sets all others.
  const isAnswer = prefix.map((row) => row.quantifier === data.side);
  const everyPlace = prefix.map((_, place) => place);
  const switches = everyPlace.filter((place) => !isAnswer[place]);
  const turns = blocks();
  const turnOf = turns.flatMap(({ places }, number) => places.map(() => number));

  // -- The formula ------------------------------------------------------------------------------

  // Rows in preorder, as a sheet has them: a literal is the number of its variable, counted from
  // 1, negative for its negation; an operator is its kind and how many children it has.
  function tree(rows) {
    const below = rows.map(() => []);
    const owed = [];
    rows.forEach((row, at) => {
      const parent = owed[owed.length - 1];
      if (parent) {
        below[parent.at].push(at);
        parent.left -= 1;
      }
      owed.push({ at, left: isLiteral(row) ? 0 : row[1] });
      while (owed.length > 0 && owed[owed.length - 1].left === 0) owed.pop();
    });
    return { rows, below };
  }

  function isLiteral(row) {
    return typeof row === "number";
  }

  // The value of which one child decides an operator.
  function decisive(row) {
    return row[0] === "or";
  }

  // What each row is under the values that are known: true, false, or null while it is open.
  // Children stand behind their parent, so the last row comes first.
  function values({ rows, below }, known) {
    const found = rows.map(() => null);
    for (let at = rows.length - 1; at >= 0; at -= 1) {
      const row = rows[at];
      const children = below[at].map((child) => found[child]);
      found[at] = isLiteral(row) ? literalValue(row, known) : operatorValue(row, children);
    }
    return found;
  }

  function literalValue(row, known) {
    const value = known[Math.abs(row) - 1];
    return value === null ? null : value === row > 0;
  }

  function operatorValue(row, children) {
    if (children.includes(decisive(row))) return decisive(row);
    return children.includes(null) ? null : !decisive(row);
  }

  // The rows that decide the root: of an operator that one child decides, the child with the
  // fewest literals below it that count; of any other, all children.
  function deciding({ rows, below }, found) {
    const costs = rows.map(() => 1);
    const choice = (at) => {
      const alike = below[at].filter((child) => found[child] === found[at]);
      if (found[at] !== decisive(rows[at])) return alike;
      return [alike.reduce((best, child) => (costs[child] < costs[best] ? child : best))];
    };
    for (let at = rows.length - 1; at >= 0; at -= 1) {
      if (found[at] !== null && below[at].length > 0) {
        costs[at] = choice(at).reduce((sum, child) => sum + costs[child], 0);
      }
    }
    const marked = new Set();
    const waiting = found[0] === null ? [] : [0];
    while (waiting.length > 0) {
      const at = waiting.pop();
      marked.add(at);
      if (below[at].length > 0) waiting.push(...choice(at));
    }
    return marked;
  }

  // -- The game ---------------------------------------------------------------------------------

  // The prefix in runs of one quantifier.
  function blocks() {
    const found = [];
    prefix.forEach((row, place) => {
      const last = found[found.length - 1];
      if (last && last.quantifier === row.quantifier) last.places.push(place);
      else found.push({ quantifier: row.quantifier, places: [place] });
    });
    return found;
  }

  // The play in which the person has chosen these values, null for none: what every variable is,
  // and every row of the matrix. Functions come in an order in which all that one reads is known
  // before. An answer is given when its turn has come, even if it is known earlier.
  function played(chosen) {
    const foreseen = chosen.slice();
    for (const { variable, tree: body } of functions) foreseen[variable] = values(body, foreseen)[0];
    let reached = true;
    const set = foreseen.map((value, place) => {
      reached = reached && value !== null;
      return reached || !isAnswer[place] ? value : null;
    });
    const found = values(matrix, set);
    const turn = turns.findIndex(({ places }) => places.some((place) => set[place] === null));
    return { set, found, value: found[0], turn: turn < 0 ? turns.length : turn };
  }

  // The values that are chosen in turn: behind a turn that isn't whole there are none.
  function inTurn(chosen) {
    const { turn } = played(chosen);
    const kept = chosen.slice();
    for (const { places } of turns.slice(turn + 1)) for (const place of places) kept[place] = null;
    return kept;
  }

  // -- The address ------------------------------------------------------------------------------

  function address(chosen) {
    const set = switches.filter((place) => chosen[place] !== null);
    return set.map((place) => assignment(place, chosen)).join(",");
  }

  function assignment(place, set) {
    return `${prefix[place].name}=${digit(set[place])}`;
  }

  // The same to read, and never over the end of a line.
  function told(place, set) {
    return `${prefix[place].name}\u00a0=\u00a0${digit(set[place])}`;
  }

  function digit(value) {
    return value === null ? "–" : value ? "1" : "0";
  }

  // The values that an address has, and its words that say none here.
  function readAddress(text) {
    const chosen = prefix.map(() => null);
    const words = unescaped(text).split(",").filter((word) => word !== "");
    const strange = words.filter((word) => {
      const [name, value, ...rest] = word.split("=");
      const place = prefix.findIndex((row) => row.name === name);
      const isFree = place >= 0 && !isAnswer[place] && chosen[place] === null;
      const isGood = isFree && /^[01]$/.test(value) && rest.length === 0;
      if (isGood) chosen[place] = value === "1";
      return !isGood;
    });
    const kept = inTurn(chosen);
    const early = switches.filter((place) => kept[place] !== chosen[place]);
    return { chosen: kept, strange: strange.concat(early.map((place) => assignment(place, chosen))) };
  }

  function unescaped(text) {
    try {
      return decodeURIComponent(text);
    } catch {
      return text;
    }
  }

  // -- What there is on the page ----------------------------------------------------------------

  function element(tag, attributes, ...children) {
    const made = document.createElement(tag);
    for (const [name, value] of Object.entries(attributes)) made.setAttribute(name, value);
    made.append(...children);
    return made;
  }

  // A list of words, the first of them if they are many.
  function listed(words, most = MOST_LISTED) {
    const shown = words.length > most + 1 ? words.slice(0, most) : words;
    const more = words.length - shown.length;
    return shown.join(", ") + (more > 0 ? ` and ${more} more` : "");
  }

  function counted(number, noun, nouns = `${noun}s`) {
    return `${number.toLocaleString("en")} ${number === 1 ? noun : nouns}`;
  }

  function onOff(value) {
    return value === null ? "waits" : value ? "1 on" : "0 off";
  }

  function stateOf(value) {
    return value === null ? "open" : String(value);
  }

  // A name that may go on in the next line behind each underscore.
  function wrapped(name) {
    const pieces = name.match(/[^_]*_|[^_]+/g) ?? [];
    return pieces.flatMap((piece, at) => (at === 0 ? [piece] : [element("wbr", {}), piece]));
  }

  const radios = [];
  const lamps = [];

  function turnItem({ quantifier, places }, number) {
    const isMine = quantifier !== data.side;
    const heading = element(
      "h2",
      {},
      element("span", { class: "number" }, String(number + 1)),
      element("span", {}, SIDES[quantifier].turn),
      element("span", { class: "who" }, isMine ? "you" : "strategy"),
    );
    const positions = places.map((place) => (isMine ? switchOf(place) : lampOf(place)));
    const item = element("li", { class: `turn card ${isMine ? "mine" : "answer"}` }, heading);
    item.append(element("div", { class: "positions" }, ...positions));
    return item;
  }

  function switchOf(place) {
    const choice = (value) => {
      const input = element("input", { type: "radio", name: `switch-${place}`, value: digit(value) });
      input.addEventListener("change", () => choose(place, value));
      radios.push({ place, value, input });
      const words = element("span", {}, element("b", {}, digit(value)), value ? " on" : " off");
      return element("label", {}, input, words);
    };
    const sides = element("div", { class: "switch" }, choice(false), choice(true));
    const legend = element("legend", {}, ...wrapped(prefix[place].name));
    return element("fieldset", { class: "position", "data-place": place }, legend, sides);
  }

  function lampOf(place) {
    const state = element("span", { class: "state" });
    const lamp = element(
      "div",
      { class: "position lamp" },
      element("span", { class: "name" }, ...wrapped(prefix[place].name)),
      element("span", { class: "light" }, element("span", { class: "bulb", "aria-hidden": "true" }), state),
    );
    lamps.push({ place, lamp, state });
    return lamp;
  }

  const lines = [];

  function functionItem({ variable, text, tree: body }) {
    const name = () => element("b", {}, ...wrapped(prefix[variable].name));
    const code = element("code", {}, name(), " = ", ...wrapped(text));
    const size = ` = .. ${counted(body.rows.length, "row")}`;
    const summary = element("summary", {}, element("code", {}, name(), size));
    const shown = text.length > LONG_FUNCTION ? element("details", {}, summary, code) : code;
    const state = element("span", { class: "state" });
    const reads = element("p", { class: "reads" });
    const line = element("div", { class: "line" }, shown, state);
    const item = element("li", { "data-place": variable }, line, reads);
    const read = new Set(body.rows.filter(isLiteral).map((row) => Math.abs(row) - 1));
    lines.push({ variable, item, state, reads, read: everyPlace.filter((place) => read.has(place)) });
    return item;
  }

  // Rows of the matrix that are on the page. What is below an operator is made when it is opened.
  const shownRows = new Map();

  function rowItem(at, guard) {
    const row = matrix.rows[at];
    const children = matrix.below[at];
    const sign = element("span", { class: "sign", "aria-hidden": "true" });
    const state = element("span", { class: "hidden" });
    const words = [sign, element("span", { class: "words" }, ...wrapped(rowWords(row, guard))), state];
    if (children.length === 0) {
      const item = element("li", { class: "leaf" }, ...words);
      shownRows.set(at, { item, sign, state });
      return item;
    }
    if (children.length <= MOST_LISTED && children.every((child) => matrix.below[child].length === 0)) {
      const leaves = element("ul", {}, ...children.map((child) => rowItem(child)));
      const item = element("li", { class: "flat" }, element("span", { class: "line" }, ...words), leaves);
      shownRows.set(at, { item, sign, state });
      return item;
    }
    const list = element("ul", {});
    const more = element("button", { type: "button", class: "more" });
    const details = element("details", {}, element("summary", {}, ...words), list, more);
    details.addEventListener("toggle", () => open(at, details.open));
    more.addEventListener("click", () => fill(at));
    const item = element("li", { class: "branch" }, details);
    shownRows.set(at, { item, sign, state, details, list, more, count: 0 });
    return item;
  }

  function rowWords(row, guard) {
    if (isLiteral(row)) return `${row < 0 ? "not " : ""}${prefix[Math.abs(row) - 1].name}`;
    const [kind, count] = row;
    if (count === 0) return kind === "and" ? "always" : "never";
    const words = kind === "and" ? `all of ${count}` : `one of ${count}`;
    return guard ? `${guard}: ${words}` : words;
  }

  // What the children of an operator are called, which is known of an AND at the root.
  function guardsOf(at) {
    return at === 0 && data.guards.length === matrix.below[0].length ? data.guards : [];
  }

  // The next children of an operator, and a button for the rest.
  function fill(at) {
    const shown = shownRows.get(at);
    const children = matrix.below[at];
    if (!shown.list || shown.count === children.length) return;
    const guards = guardsOf(at);
    const next = children.slice(shown.count, shown.count + MOST_AT_ONCE);
    shown.list.append(...next.map((child, number) => rowItem(child, guards[shown.count + number])));
    shown.count += next.length;
    const left = children.length - shown.count;
    shown.more.hidden = left === 0;
    shown.more.textContent = `${left.toLocaleString("en")} more`;
    showRows();
  }

  function open(at, isOpen) {
    const { details, count } = shownRows.get(at);
    if (isOpen && count === 0) fill(at);
    if (details) details.open = isOpen;
  }

  // The root, and what is below it level by level while there is room.
  function openFirst() {
    open(0, true);
    let room = MOST_ROWS_OPEN - Math.min(matrix.below[0].length, MOST_AT_ONCE);
    const waiting = matrix.below[0].slice(0, MOST_AT_ONCE);
    while (waiting.length > 0) {
      const at = waiting.shift();
      room -= matrix.below[at].length;
      if (room < 0) return;
      open(at, true);
      waiting.push(...matrix.below[at].slice(0, MOST_AT_ONCE));
    }
  }

  // Opens what decides, and closes the rest.
  function openDeciding() {
    const marked = deciding(matrix, now.found);
    for (const [at, { details }] of shownRows) if (details?.open && !marked.has(at)) open(at, false);
    const waiting = marked.has(0) ? [0] : [];
    for (let room = MOST_ROWS_OPEN; room > 0 && waiting.length > 0; room -= 1) {
      const at = waiting.shift();
      open(at, true);
      const next = matrix.below[at].filter((child) => marked.has(child)).slice(0, room);
      while (next.some((child) => !shownRows.has(child))) fill(at);
      waiting.push(...next);
    }
  }

  // -- Showing a play ---------------------------------------------------------------------------

  let chosen = prefix.map(() => null);
  let now = played(chosen);
  let past = [];
  let strange = [];

  function show() {
    now = played(chosen);
    showTurns();
    showFunctions();
    showRows();
    showOutcome();
    if (!find("plays").hidden) showPlays();
    enable(find("undo"), past.length > 0);
    enable(find("again"), chosen.some((value) => value !== null));
    find("address").textContent = `#${address(chosen)}`;
    find("copied").textContent = "";
  }

  // A button that is switched off hands the focus on.
  function enable(button, isEnabled) {
    const isLeft = !isEnabled && document.activeElement === button;
    button.disabled = !isEnabled;
    if (isLeft) focusOn(nextPlace() ?? switches[0]);
  }

  function focusOn(place) {
    radios.find((radio) => radio.place === place)?.input.focus();
  }

  // The next switch to set.
  function nextPlace() {
    return turns[now.turn]?.places.find((place) => now.set[place] === null);
  }

  function showTurns() {
    for (const { place, value, input } of radios) {
      input.checked = now.set[place] === value;
      input.disabled = turnOf[place] > now.turn;
    }
    for (const { place, lamp, state } of lamps) {
      lamp.dataset.value = stateOf(now.set[place]);
      state.textContent = onOff(now.set[place]);
    }
    [...find("turns").children].forEach((item, number) => {
      item.classList.toggle("next", number === now.turn);
      item.classList.toggle("later", number > now.turn);
      if (number === now.turn) item.setAttribute("aria-current", "step");
      else item.removeAttribute("aria-current");
    });
  }

  function showFunctions() {
    for (const { variable, item, state, reads, read } of lines) {
      item.dataset.value = stateOf(now.set[variable]);
      state.textContent = onOff(now.set[variable]);
      const known = read.filter((place) => now.set[place] !== null);
      reads.textContent = listed(known.map((place) => told(place, now.set)));
    }
  }

  function showRows() {
    const marked = deciding(matrix, now.found);
    for (const [at, { item, sign, state }] of shownRows) {
      const value = stateOf(now.found[at]);
      const decides = marked.has(at);
      sign.dataset.value = value;
      item.classList.toggle("decides", decides);
      sign.textContent = SIGNS[value];
      state.textContent = `, ${STATES[value]}${decides ? ", decides" : ""}`;
    }
  }

  // The variables whose values decide the matrix.
  function decidedBy({ found, set }) {
    const rows = [...deciding(matrix, found)].map((at) => matrix.rows[at]).filter(isLiteral);
    const read = new Set(rows.map((row) => Math.abs(row) - 1));
    return everyPlace.filter((place) => read.has(place)).map((place) => told(place, set));
  }

  function showOutcome() {
    const value = stateOf(now.value);
    find("outcome").dataset.value = value;
    find("outcome").firstElementChild.textContent = SIGNS[value];
    find("headline").textContent = headline();
    const words = [answered(), reasons(), goOn(), unread()].filter((sentence) => sentence !== "");
    find("detail").textContent = words.join(" ");
  }

  function headline() {
    if (now.value === null) return `Your turn: set ${toSet()}.`;
    const word = now.value ? "Holds" : "Fails";
    if (now.turn < turns.length) return `${word} already.`;
    const winner = now.value ? SIDES.exists.name : SIDES["for all"].name;
    if (winner === strategist.name) return `${word}: ${winner} won.`;
    return `${word}: ${winner} won. This play breaks the strategy!`;
  }

  function toSet() {
    const unset = turns[now.turn].places.filter((place) => now.set[place] === null);
    const names = unset.map((place) => prefix[place].name);
    return `the ${person.own}${names.length === 1 ? "" : "s"} ${listed(names, 3)}`;
  }

  // The answers of the turn before, while the game goes on.
  function answered() {
    const before = turns[now.turn - 1];
    if (now.turn === turns.length || !before || !isAnswer[before.places[0]]) return "";
    const answers = before.places.map((place) => told(place, now.set));
    return `The strategy answered ${listed(answers)}.`;
  }

  function reasons() {
    if (now.value === null) return "";
    const words = decidedBy(now);
    const reason = words.length > 0 ? `Decided by ${listed(words)}.` : "It is so whatever is set.";
    return now.value ? reason : failingGuard() + reason;
  }

  // The guard that decides a matrix whose guards have names.
  function failingGuard() {
    const marked = deciding(matrix, now.found);
    const guards = guardsOf(0).filter((_, number) => marked.has(matrix.below[0][number]));
    return guards.length === 1 ? `'${guards[0]}' fails. ` : "";
  }

  function goOn() {
    return now.value === null || now.turn === turns.length ? "" : `You can go on: set ${toSet()}.`;
  }

  function unread() {
    return strange.length > 0 ? `Not taken from the address: ${listed(strange)}.` : "";
  }

  // -- All plays --------------------------------------------------------------------------------

  // The plays over all values of these switches, the first one the slowest to change.
  function playsOver(free, from) {
    return Array.from({ length: 2 ** free.length }, (_, number) => {
      const values = from.slice();
      free.forEach((place, at) => {
        values[place] = Math.floor(number / 2 ** (free.length - 1 - at)) % 2 === 1;
      });
      return values;
    });
  }

  function showPlays() {
    const isSmall = switches.length <= MOST_FREE;
    const free = isSmall ? switches : switches.filter((place) => chosen[place] === null);
    if (free.length > MOST_FREE) {
      find("plays-summary").textContent = tooMany(free.length);
      find("plays-table").replaceChildren();
      return;
    }
    const plays = playsOver(free, chosen).map((values) => ({ values, ...played(values) }));
    const which = isSmall ? "" : " from here";
    find("plays-summary").textContent = `${counted(plays.length, "play")}${which}: it ${tally(plays)}.`;
    find("plays-table").replaceChildren(playsHead(), element("tbody", {}, ...plays.map(playRow)));
  }

  function tooMany(free) {
    const plays = free > 20 ? `2^${free} plays` : counted(2 ** free, "play");
    const switched = counted(free - MOST_FREE, "more switch", "more switches");
    return `${plays} are too many for a table of ${2 ** MOST_FREE}. Set ${switched}: then those that are left are here.`;
  }

  function tally(plays) {
    const held = plays.filter(({ value }) => value).length;
    if (held === plays.length) return "holds in each";
    return held === 0 ? "fails in each" : `holds in ${held}, fails in ${plays.length - held}`;
  }

  function ownerOf(place) {
    return isAnswer[place] ? "answer" : "mine";
  }

  function playsHead() {
    const head = (words) => element("th", { scope: "col" }, words);
    const names = everyPlace.map((place) =>
      element("th", { scope: "col", class: ownerOf(place) }, ...wrapped(prefix[place].name)));
    return element("thead", {}, element("tr", {}, head("play"), head("outcome"), ...names, head("decided by")));
  }

  function playRow(play, number) {
    const { values, set, value } = play;
    const isNow = switches.every((place) => values[place] === chosen[place]);
    const link = element("a", { href: `#${address(values)}` }, String(number + 1));
    const cells = everyPlace.map((place) => element("td", { class: ownerOf(place) }, digit(set[place])));
    const state = stateOf(value);
    const outcome = element("td", { "data-value": state }, `${SIGNS[state]} ${STATES[state]}`);
    const why = element("td", { class: "why" }, listed(decidedBy(play), 4));
    const row = element("tr", {}, element("th", { scope: "row" }, link), outcome, ...cells, why);
    if (isNow) row.setAttribute("aria-current", "true");
    return row;
  }

  // -- What the person does ---------------------------------------------------------------------

  function become(next) {
    past.push(chosen);
    chosen = next;
    strange = [];
    keepAddress();
    show();
  }

  // The address says the play, and the browser's way back stays what it was.
  function keepAddress() {
    const text = address(chosen);
    try {
      history.replaceState(null, "", text === "" ? location.href.split("#")[0] : `#${text}`);
    } catch {
      // Some browsers allow it to no page that is a file.
      location.replace(`#${text}`);
    }
  }

  function choose(place, value) {
    if (now.set[place] === value) return;
    const next = chosen.slice();
    next[place] = value;
    const { turn } = now;
    become(next);
    if (now.turn !== turn) find("turns").children[now.turn]?.scrollIntoView({ block: "nearest" });
  }

  function undo() {
    if (past.length === 0) return;
    chosen = past.pop();
    strange = [];
    keepAddress();
    show();
  }

  // The play that an address has; taking back then goes switch by switch.
  function readPlay() {
    const read = readAddress(location.hash.slice(1));
    chosen = prefix.map(() => null);
    past = [];
    for (const place of switches.filter((place) => read.chosen[place] !== null)) {
      past.push(chosen);
      chosen = chosen.slice();
      chosen[place] = read.chosen[place];
    }
    strange = read.strange;
    show();
  }

  // The switch that the focus is on, or the next one to set.
  function setByKey(value) {
    const focused = document.activeElement?.closest("fieldset");
    const place = focused ? Number(focused.dataset.place) : nextPlace();
    if (place === undefined) return;
    choose(place, value);
    focusOn(nextPlace() ?? place);
  }

  function onKey(event) {
    const { activeElement, body } = document;
    const isFree = activeElement === body || find("panel").contains(activeElement);
    if (!isFree || event.ctrlKey || event.altKey || event.metaKey) return;
    if (event.key === "0" || event.key === "1") setByKey(event.key === "1");
    else if (event.key === "Backspace") undo();
    else return;
    event.preventDefault();
  }

  function toggleAll() {
    const isOpen = find("plays").hidden;
    find("plays").hidden = !isOpen;
    find("all").setAttribute("aria-expanded", String(isOpen));
    if (!isOpen) return;
    showPlays();
    find("plays").scrollIntoView();
  }

  async function copy() {
    try {
      await navigator.clipboard.writeText(location.href);
      find("copied").textContent = "Copied.";
    } catch {
      getSelection().selectAllChildren(find("address"));
      find("copied").textContent = "Select and copy it by hand.";
    }
  }

  // What the strategy does, as far as that is known.
  function claim(isWon) {
    if (isWon) return strategist.wins;
    if (data.standing === "loses") return "Some play breaks these functions.";
    return "It isn't known whether these functions win.";
  }

  function start() {
    const isWon = data.standing === "found" || data.standing === "wins";
    const word = isWon ? String(data.side === "exists") : data.standing;
    find("claim").append(element("strong", { class: "verdict" }, word), ` ${claim(isWon)} ${strategist.play}`);
    find("origin").textContent = ORIGINS[data.standing];
    find("functions-heading").textContent =
      functions.length > 0 ? `How ${strategist.name} answer${data.side === "exists" ? "" : "s"}` : "No answers";
    find("turns").append(...turns.map(turnItem));
    find("functions").append(...functions.map(functionItem));
    find("matrix").append(rowItem(0));
    find("why").hidden = matrix.rows.length <= MOST_ROWS_OPEN;
    find("all").textContent = switches.length <= MOST_FREE ? `Play all ${2 ** switches.length}` : "Play all";
    openFirst();
    find("undo").addEventListener("click", undo);
    find("again").addEventListener("click", () => become(prefix.map(() => null)));
    find("all").addEventListener("click", toggleAll);
    find("why").addEventListener("click", openDeciding);
    find("copy").addEventListener("click", copy);
    document.addEventListener("keydown", onKey);
    addEventListener("hashchange", readPlay);
    readPlay();
  }

  start();
})();
