"use strict";
// The page of mux-web(1): it paints rows of text and sends what you type.  Text from the terminal reaches the document
// through textContent alone, so none of it becomes markup, and every class name is one of a fixed list.
(() => {
  const it = (id) => document.getElementById(id);
  const [login, said, screen, frame, page, keys, news, bar, past, turns] =
    ["login", "said", "screen", "frame", "page", "keys", "news", "bar", "past", "turns"].map(it);
  const watching = location.hash === "#watch";
  const ATTACH = 0x41, WATCH = 0x56, LINK = 0x4c, KEYS = 0x4b, RESIZE = 0x52, DETACH = 0x44, LONGEST = 8192;
  // `why` is the last text of the bridge; `app` is DECCKM: with it arrow keys send ESC O, and not ESC [.
  let socket = null, size = "", why = "", app = false;
  const say = (text, isFault) => {
    said.textContent = text;
    said.classList.toggle("fault", isFault === true);
  };

  // Rows.  A row is pairs of a style and a text.
  const classes = (style) => {
    const found = ["bold", "underlined", "blinking"].filter((_, bit) => style >> bit & 1);
    let fore = style >> 4 & 15, back = style >> 8 & 15;
    // 9 is the terminal's own other colour.
    if (style & 8) [fore, back] = [back || 9, fore || 9];
    if (fore) found.push("fore" + fore);
    if (back) found.push("back" + back);
    return found;
  };
  const span = (text, names) => {
    const made = document.createElement("span");
    made.textContent = text;
    made.classList.add(...names);
    return made;
  };
  // Characters that turn the direction of text, or end a line, could show a row as another one.
  const TURNS = /[\u061c\u200e\u200f\u202a-\u202e\u2028\u2029\u2066-\u2069]/g;
  // Letters that are written from right to left: each stands in a cell of its own, as on a terminal.
  const LEFTWARDS = /[\u0590-\u08ff\ufb1d-\ufdff\ufe70-\ufefc\u{10800}-\u{10fff}\u{1e800}-\u{1efff}]/u;
  // A character with its marks.  One whose width in this font isn't a cell's gets a box.
  const CLUSTERS = /[^](?:(?!\u00ad)[\p{Mn}\p{Me}\p{DI}\u1160-\u11ff])*/gu;
  const pen = document.createElement("canvas").getContext("2d");
  const known = new Map();
  const fits = (cluster) => {
    if (/^[ -~]$/.test(cluster)) return true;
    if (known.size > 10000) known.clear();
    if (!known.has(cluster)) {
      known.set(cluster, !LEFTWARDS.test(cluster)
        && Math.abs(pen.measureText(cluster).width - pen.measureText("0").width) < 0.05);
    }
    return known.get(cluster);
  };
  const put = (row, style, text) => {
    const names = classes(style);
    let plain = "";
    const flush = () => {
      if (plain) row.append(span(plain, names));
      plain = "";
    };
    for (const cluster of text.replace(TURNS, "").match(CLUSTERS) || []) {
      if (style & 4096 || !fits(cluster)) {
        flush();
        row.append(span(cluster, [...names, style & 4096 ? "wide" : "narrow"]));
      } else plain += cluster;
    }
    flush();
  };
  // Blanks at the end of a row that show nothing are no part of what you copy.
  const trimmed = (runs) => {
    if (runs.length && !(runs[runs.length - 2] & 0xf0a)) runs.push(runs.pop().replace(/ +$/, ""));
    return JSON.stringify(runs);
  };
  const paint = (row, text) => {
    const runs = JSON.parse(text);
    row.runs = text;
    row.replaceChildren();
    for (let i = 0; i < runs.length; i += 2) put(row, runs[i], runs[i + 1]);
    // Without a break an empty row would be no line of what you copy.
    if (!row.firstChild) row.append(document.createElement("br"));
  };
  // Output scrolls: most of these rows are now what rows below them were.  Then those move, and what is selected there
  // stays selected.
  const scroll = (wanted, first, last) => {
    const old = [...page.children].map((row) => row.runs);
    let best = 0, most = 0;
    for (let by = 1; by <= last - first; by++) {
      let same = 0;
      for (let n = first; n <= last - by; n++) same += wanted[n] === old[n + by] && /"[^"]*[^ "]/.test(wanted[n]);
      if (same > most) [best, most] = [by, same];
    }
    if (2 * most <= last - first - best) return;
    for (let n = 0; n < best; n++) {
      page.children[first].remove();
      page.insertBefore(document.createElement("div"), page.children[last] || null);
    }
  };
  const show = ([rows, columns, line, column, shown, inverted, arrows, ...changed]) => {
    while (page.children.length > rows) page.lastChild.remove();
    while (page.children.length < rows) page.append(document.createElement("div"));
    const wanted = [...page.children].map((row) => row.runs);
    for (const [n, ...runs] of changed) wanted[n] = trimmed(runs);
    if (changed.length > 1) scroll(wanted, changed[0][0], changed[changed.length - 1][0]);
    wanted.forEach((text, n) => !text || text === page.children[n].runs || paint(page.children[n], text));
    frame.style.setProperty("--columns", columns);
    app = arrows === 1;
    frame.classList.toggle("inverted", inverted === 1);
    it("cursor").hidden = !shown;
    frame.style.setProperty("--column", column);
    frame.style.setProperty("--line", line);
    note();
    // A page that is wider than its frame follows the cursor.
    if (shown && place !== (place = `${line} ${column}`)) follow();
    timer ||= setTimeout(tell, 1000);
  };
  let place = "";
  const follow = () => it("cursor").scrollIntoView({ block: "nearest", inline: "nearest" });

  // What the last rows say: the message, and above it the caption.  mux-turn tells everybody who may type, and with
  // --title the window's title says it, too.  A raised hand is a wall.
  const HAND = "I would like to type";
  const GIVEN = /^\w+: (?:(\w+) may type(?: for \w+)?|nobody(?: else| but \S+)? may type|(?:the|\w+'s) turn is over)$/;
  let turn = null, hands = new Set(), marked = false;
  const keep = (name, value) => {
    if (value) sessionStorage.setItem(name, JSON.stringify(value));
    else sessionStorage.removeItem(name);
  };
  const kept = (name) => JSON.parse(sessionStorage.getItem(name) || "null");
  const hear = (caption, message) => {
    const given = GIVEN.exec(message), [, name, text] = /^(\w+): (.*)$/.exec(message) || [];
    const titled = /^\d+ .* \((\w+) types\)$/.exec(caption);
    if (titled) turn = titled[1];
    else if (given) turn = given[1] || "";
    else if (marked) turn = "";
    marked = titled !== null;
    if (text === HAND) hands.add(name);
    hands.delete(turn);
    keep("mux turn", [turn, [...hands]]);
  };
  const told_turn = (me, isDenied, types) => {
    if (isDenied) return `It isn't your turn${types ? ` (${types} types)` : ""}.`;
    if (turn && turn === me) return "It's your turn: type.";
    return turn === null ? "" : turn ? `${turn} types.` : "Nobody has the turn.";
  };
  const note = () => {
    const [caption = "", message = ""] = [...page.children].slice(-2).map((row) => row.textContent.trimEnd());
    if (!caption && page.firstChild) return;  // (a page of a new size is still to be drawn)
    // Who may not look back is told so.
    if (back && message.startsWith("denied: x on scrollview")) {
      back = asked = 0;
      past.hidden = true;
    }
    hear(caption, message);
    const me = user ? user.name : "", lock = /^denied: window \d+ locked by (\w+)$/.exec(message);
    const isDenied = lock || /^denied: w on window /.test(message), types = lock ? lock[1] : turn;
    const lines = [told_turn(me, isDenied, types)];
    if (caption === "--") lines.unshift("No window is shown.");
    else if (/^\d+ \?$/.test(caption)) lines.unshift("You may not read this window.");
    if (message.startsWith("denied: x on wall")) lines.push("Hands aren't raised here: ask aloud.");
    else if (hands.size) lines.push(`${[...hands].join(", ")} would like to type.`);
    const text = lines.join(" ").trim();
    if (it("turn").textContent !== text) it("turn").textContent = text;
    // Once it is there it stays, so that the page keeps its size.
    if (text) turns.hidden = false;
    turns.classList.toggle("mine", turn === me && me !== "" && !isDenied);
    it("next").hidden = watching || !/^(--|\d+ \?)$/.test(caption);
    it("hand").hidden = watching || !isDenied && turn === null || turn === me || hands.has(me);
    const says = !turn ? "" : turn === me ? "your turn - " : `${turn} types - `;
    document.title = `${says}mux: ${me || "wall"}`;
  };
  // A command at the prompt, as from any client.
  const command = (text) => {
    if (alive && open) later = text;
    else if (alive) give(text);
    keys.focus();
  };
  it("hand").addEventListener("click", () => command(`\x01:wall "${HAND}"\r`));
  it("next").addEventListener("click", () => command("\x01n"));

  // What is new, for screen readers: once a second at most, and at most 1,000 characters then.
  let told = [], timer = 0;
  const tell = () => {
    timer = 0;
    const now = [...page.children].map((row) => row.textContent.trimEnd());
    const left = new Map();
    for (const text of told) left.set(text, (left.get(text) || 0) + 1);
    const fresh = now.map((text, n) => {
      // A row that only moved isn't new, and of one that grew only its end is.
      const count = left.get(text);
      if (count) left.set(text, count - 1);
      if (count || !text) return "";
      return told[n] && text.startsWith(told[n]) ? text.slice(told[n].length) : text;
    });
    told = now;
    const text = fresh.filter((part) => part.trim()).join("\n").slice(0, 1000);
    if (!text) return;
    const made = document.createElement("p");
    made.textContent = text;
    news.append(made);
    while (news.children.length > 20) news.firstChild.remove();
  };

  // The size that fits, with a border of 4 pixels.  Letters have 16 pixels.  They shrink, to 10 at least, until 80
  // columns fit; if these still don't, the page has 80 columns and moves in its frame.  On a wall letters grow until
  // 80 columns of 24 lines fill the page.
  const COLS = 80, ROWS = 24, BIG = 16, SMALL = 10;
  const clamp = (n, least, most) => Math.max(least, Math.min(most, Math.floor(n)));
  const two = (n) => [n >> 8, n & 255];
  const wide = (pixels) => {
    frame.style.setProperty("--letter", pixels + "px");
    frame.style.setProperty("--h", Math.floor(pixels * 1.25) + "px");
    const probe = span("0".repeat(50), []);
    page.append(probe);
    const { font } = getComputedStyle(page), w = probe.getBoundingClientRect().width / 50 || pixels * 0.6;
    probe.remove();
    pen.font = font;
    return w;
  };
  const fitting = () => {
    const width = frame.clientWidth - 8, height = frame.clientHeight - 8;
    let pixels = BIG, w = wide(pixels);
    const fit = width / COLS / w * pixels;
    if (watching) pixels = Math.max(SMALL, Math.min(fit, height / ROWS / 1.25));
    else if (fit < pixels) pixels = Math.max(SMALL, fit);
    pixels = Math.floor(pixels * 4) / 4;
    if (pixels !== BIG) w = wide(pixels);
    known.clear();
    frame.style.setProperty("--w", w + "px");
    const rows = clamp(height / Math.floor(pixels * 1.25), 4, 200);
    return [...two(rows), ...two(clamp(Math.max(width / w, COLS), 20, 300))];
  };
  const resize = () => {
    if (screen.hidden) return;
    const found = fitting();
    follow();
    if (size === String(found)) return;
    size = String(found);
    send(RESIZE, found);
  };

  // Keys of a VT220.
  const send = (kind, bytes) => {
    if (socket && socket.readyState === WebSocket.OPEN) socket.send(Uint8Array.of(kind, ...bytes));
  };
  // What is open after the keys that were sent: the command key waits for another one, and a prompt for the end of its
  // line.  Keys that the page gives of its own would be part of that, so they come `later`.
  const COMMAND = 1, PROMPT = 2, LAST = "\r\n\x1b\x03\x07";
  let open = 0, later = "";
  const opened = (key) => {
    if (open === COMMAND) return key === ":" ? PROMPT : 0;
    if (open === PROMPT) return LAST.includes(key) ? 0 : PROMPT;
    return key === "\x01" ? COMMAND : 0;
  };
  const give = (text) => {
    for (const key of text) open = opened(key);
    const bytes = new TextEncoder().encode(text), own = open ? "" : later;
    for (let at = 0; at < bytes.length; at += LONGEST) send(KEYS, bytes.subarray(at, at + LONGEST));
    if (!own) return;
    later = "";
    give(own);
  };
  const type = (text) => {
    if (watching || !alive) return;
    if (back && !open) look(0);
    give(text);
  };
  const CURSOR = { ArrowUp: "A", ArrowDown: "B", ArrowRight: "C", ArrowLeft: "D", Home: "H", End: "F" };
  const NAMED = { Enter: "\r", Backspace: "\x7f", Tab: "\t", Escape: "\x1b", Insert: "\x1b[2~", Delete: "\x1b[3~",
    PageUp: "\x1b[5~", PageDown: "\x1b[6~" };
  const FUNCTIONS = ["OP", "OQ", "OR", "OS",
    ...[15, 17, 18, 19, 20, 21, 23, 24, 25, 26, 28, 29, 31, 32, 33, 34].map((n) => `[${n}~`)];
  const CONTROLS = { " ": "\0", "@": "\0", "[": "\x1b", "\\": "\x1c", "]": "\x1d", "^": "\x1e", "_": "\x1f",
    "/": "\x1f", "?": "\x7f", 2: "\0", 3: "\x1b", 4: "\x1c", 5: "\x1d", 6: "\x1e", 7: "\x1f", 8: "\x7f" };
  const control = (key) => (/^[a-z]$/i.test(key) ? String.fromCharCode(key.charCodeAt(0) & 31) : CONTROLS[key]);
  const named = (key, shift) => {
    const f = /^F(\d+)$/.exec(key);
    // Shift with F1 to F10 gives F11 to F20.
    if (f) return "\x1b" + FUNCTIONS[f[1] - 1 + (shift && f[1] <= 10 ? 10 : 0)];
    if (key in CURSOR) return (app ? "\x1bO" : "\x1b[") + CURSOR[key];
    return shift && key === "Tab" ? "\x1b[Z" : NAMED[key];
  };
  const isMac = /Mac|iP/.test(navigator.platform);
  // Looking back: the command scrollview, as from any client, four times a second at most.  `back` is how many lines
  // the page looks back, as far as it has asked for it.
  let back = 0, asked = 0, looks = 0;
  const ask = () => {
    looks = 0;
    if (asked === back) return;
    looks = setTimeout(ask, 250);
    if (open) return;
    asked = back;
    give(`\x01:scrollview ${back}\r`);
  };
  const look = (lines) => {
    if (watching || !alive) return;
    back = clamp(lines, 0, 2000);
    past.hidden = !back;
    if (looks && back) return;
    clearTimeout(looks);
    ask();
  };
  const half = () => Math.max(1, page.children.length >> 1);
  past.addEventListener("click", () => {
    look(0);
    keys.focus();
  });
  let rest = 0;
  frame.addEventListener("wheel", (event) => {
    if (event.ctrlKey || event.shiftKey || Math.abs(event.deltaX) > Math.abs(event.deltaY)) return;
    event.preventDefault();
    rest -= event.deltaMode ? event.deltaY * 3 : event.deltaY / 20;
    const lines = Math.trunc(rest);
    rest -= lines;
    if (lines) look(back + lines);
  }, { passive: false });
  // A finger that moves down looks back; one that moves sideways moves a page that is wider than its frame.
  let finger = null;
  frame.addEventListener("touchstart", (event) => {
    const [first, second] = event.touches;
    finger = second ? null : { y: first.clientY, back };
  }, { passive: true });
  frame.addEventListener("touchmove", (event) => {
    if (!finger) return;
    const lines = Math.trunc((event.touches[0].clientY - finger.y) / 20);
    if (lines || back) look(finger.back + lines);
  }, { passive: true });
  // What a key sends; undefined if the key is the browser's, or if its character comes by an input event.
  const bytesOf = (event) => {
    const { key, ctrlKey, altKey, shiftKey, metaKey } = event;
    if (metaKey || event.getModifierState("AltGraph") || shiftKey && key === "Insert") return undefined;
    if (ctrlKey && shiftKey && !(key in CONTROLS) || (ctrlKey || altKey) && /^F\d+$/.test(key)) return undefined;
    if (ctrlKey && key === "c" && String(getSelection())) return undefined;
    const found = named(key, shiftKey) ?? (ctrlKey ? control(key) : undefined);
    // Alt is an ESC before the key.  On a Mac it makes characters.
    if (!altKey || isMac) return found;
    return found !== undefined ? "\x1b" + found : key.length === 1 && !ctrlKey ? "\x1b" + key : undefined;
  };
  // The text area holds one blank, so that a phone's keyboard has something to delete.
  const empty = () => {
    keys.value = " ";
    keys.setSelectionRange(1, 1);
  };
  const held = { ctrl: false, alt: false };
  const hold = (name, value) => {
    held[name] = value;
    bar.querySelector(`[data-hold=${name}]`).setAttribute("aria-pressed", value);
  };
  // Text that no key sent, from the clipboard or an input method: lines end with CR, and other control characters are
  // left out, since C-a would be a command key.
  const plain = (text) => text.replace(/\r?\n/g, "\r").replace(/[\0-\x08\x0a-\x0c\x0e-\x1f\x7f-\x9f]/g, "");
  // Sends what was typed; Ctrl and Alt of the bar hold for one key.
  const typed = (text) => {
    const sent = held.ctrl && [...text].length === 1 ? control(text) ?? text : text;
    type(held.alt ? "\x1b" + sent : sent);
    for (const name in held) hold(name, false);
  };
  const flush = () => {
    const { value } = keys;
    empty();
    if (!value) typed("\x7f");
    else if (value !== " ") typed(plain(value.replace(/^ /, "")));
  };
  screen.addEventListener("keydown", (event) => {
    if (event.isComposing || event.keyCode === 229) return;
    // Tab goes to the window, so Ctrl-F10 goes to the buttons, and Escape comes back.
    const isOut = event.target.matches("button");
    const [first] = [...screen.querySelectorAll("button")].filter((it) => it.offsetWidth);
    if (isOut && event.key === "Escape") keys.focus();
    else if (event.ctrlKey && event.key === "F10" && first) first.focus();
    else if (!isOut) press(event);
  });
  const press = (event) => {
    if (!alive && event.key === "Escape" && (user || secret)) {
      end(WHY[0]);
      return;
    }
    if (event.shiftKey && !event.ctrlKey && /^Page(Up|Down)$/.test(event.key)) {
      event.preventDefault();
      look(back + (event.key === "PageUp" ? half() : -half()));
      return;
    }
    const found = bytesOf(event);
    if (found !== undefined || event.key.length === 1 && !event.ctrlKey && !event.metaKey) keys.focus();
    if (found === undefined) return;
    event.preventDefault();
    typed(found);
  };
  keys.addEventListener("compositionstart", () => keys.classList.add("composing"));
  keys.addEventListener("compositionend", () => {
    keys.classList.remove("composing");
    flush();
  });
  keys.addEventListener("input", (event) => event.isComposing || flush());
  document.addEventListener("paste", (event) => {
    if (screen.hidden) return;
    event.preventDefault();
    type(plain(event.clipboardData.getData("text/plain")));
  });
  frame.addEventListener("mouseup", () => String(getSelection()) || keys.focus());
  // A press on the bar leaves the focus, and with it a phone's keyboard, where it is.
  for (const name of ["pointerdown", "mousedown"]) bar.addEventListener(name, (event) => event.preventDefault());
  bar.addEventListener("click", (event) => {
    const { key, code, text, hold: name, look: way } = event.target.dataset;
    if (keys.value !== " ") flush();
    if (name) hold(name, !held[name]);
    else if (way) look(back + way * half());
    else if (key) typed(named(key, false));
    else if (code) typed(String.fromCharCode(code));
    else if (text) typed(text);
    // (Return on Leave comes twice)
    if (event.detail || event.target.id !== "leave") keys.focus();
  });
  // Leaving takes two taps.
  let leaving = 0;
  const ask_leave = (isAsked) => {
    clearTimeout(leaving);
    leaving = isAsked ? setTimeout(ask_leave, 4000, false) : 0;
    it("leave").textContent = isAsked ? "Leave now?" : "Leave";
  };
  it("leave").addEventListener("click", () => {
    const isSure = leaving !== 0;
    ask_leave(!isSure);
    if (isSure && !alive) end(WHY[0]);
    else if (isSure) send(DETACH, []);
  });

  // The connection.
  const WHY = ["You have left.", "You were removed from the session.", "The session is single-user now.",
    "Your client was ended.", "The session has ended.", "This page was too slow, and the session let it go.",
    "", "The session has ended: its trail is full."];
  // The name and the token of the user, from the login until they leave: so the page comes back by itself after a
  // break and after a reload.  They are kept for this tab alone.  `alive`: the session let this connection in.
  // `secret` is that of a link, kept until it is used, and `ends` when a page gives up whose session has ended.
  let user = null, secret = null, alive = false, heard = 0, wait = 0, again = 0, ends = 0;
  const remember = (name, token) => {
    user = name ? { name, token } : null;
    keep("mux", user);
    if (!user) forget();
  };
  const keepLink = (digits) => {
    secret = digits;
    keep("mux link", secret);
  };
  const forget = () => {
    turn = null;
    hands = new Set();
    keep("mux turn", null);
  };
  const clear = () => {
    for (const shown of [page, news]) shown.replaceChildren();
    told = [];
    back = asked = open = 0;
    later = "";
    past.hidden = true;
    it("cursor").hidden = turns.hidden = true;
  };
  // The session let the user go: the form is there again.
  const end = (text, isFault) => {
    drop();
    keepLink(null);
    ends = 0;
    clearTimeout(again);
    // What is wrong with the name or the key stands there.
    const isWrong = text === "unknown user or wrong token";
    it("wrong").textContent = isWrong ? "Nobody has this name and this key." : "";
    say(isWrong ? "" : text, isFault);
    clear();
    remember(null);
    screen.hidden = true;
    login.hidden = false;
    document.title = "mux";
    it(isFault ? "token" : "file").focus();
  };
  const drop = () => {
    const old = socket;
    socket = null;
    alive = false;
    frame.classList.add("dead");
    it("turn").textContent = "Not connected.";
    turns.classList.remove("mine");
    document.title = user ? `mux: ${user.name}` : "mux";
    if (old) old.close();
  };
  // The connection broke.  The page asks each second whether the bridge is there, and then attaches: a WebSocket that
  // is opened while the network is dead would wait for too long.  A wall asks less and less often, at last each minute.
  const lose = (text) => {
    drop();
    if (watching) clear();
    // That no server is there yet, after the session has ended, is nothing new.
    if (ends) text = WHY[4];
    say(`${text}${/[.?]$/.test(text) ? "" : "."} Trying again${watching ? "" : "; Escape gives up"}.`, true);
    clearTimeout(again);
    again = setTimeout(probe, wait * 1000);
    wait = wait ? Math.min(watching ? 60 : 1, 2 * wait) : 1;
  };
  const wants = () => !socket && (user || watching || secret);
  const probe = () => {
    if (!wants()) return;
    if (ends && Date.now() > ends) {
      end(WHY[4], true);
      return;
    }
    clearTimeout(again);
    again = setTimeout(probe, Math.max(1, wait) * 1000);
    fetch("mux.css", { method: "HEAD", cache: "no-store", signal: AbortSignal.timeout(3000) })
      .then(({ ok }) => ok && wants() && attach(), () => {});
  };
  const attach = () => {
    clearTimeout(again);
    login.hidden = true;
    screen.hidden = false;
    why = "No answer: this page isn't served now, is full, or has another address. Use the one that you were given.";
    const mine = new WebSocket(location.origin.replace(/^http/, "ws") + "/rows");
    socket = mine;
    heard = Date.now();
    mine.addEventListener("open", () => {
      why = "The connection broke.";
      heard = Date.now();
      const found = fitting();
      size = String(found);
      const bytes = (text) => new TextEncoder().encode(text);
      if (secret) send(LINK, bytes(secret));
      else if (watching) send(WATCH, found);
      else send(ATTACH, [...found, ...bytes(user.token + user.name)]);
      empty();
      keys.focus();
    });
    mine.addEventListener("message", (event) => {
      if (socket !== mine) return;
      const got = JSON.parse(event.data);
      heard = Date.now();
      if (got.welcome) welcome();
      else if (got.user) redeem(got);
      else if (Array.isArray(got)) show(got);
      else if (got.say !== undefined) why = got.say;
      else if (got.gone !== undefined && (watching || got.gone === 4)) {
        // It may begin again at once.
        if (!watching) ends ||= Date.now() + 60000;
        lose(WHY[got.gone] || why);
      } else if (got.gone !== undefined) end(WHY[got.gone] || why, got.gone > 0);
    });
    mine.addEventListener("close", ({ code, reason }) => {
      if (socket !== mine) return;
      if (code !== 1008) lose(why);
      else if (!watching) end(reason, true);
      else {
        drop();
        clear();
        say("Nobody may watch here without a name and a key.", true);
      }
    });
  };
  const welcome = () => {
    alive = true;
    wait = ends = 0;
    clear();
    say("");
    frame.classList.remove("dead");
    note();
  };
  // The bridge says each few seconds that it is there.  Without a word of it the connection is dead, though the
  // browser doesn't know yet.
  setInterval(() => {
    if (socket && Date.now() - heard > 9000) lose("No answer from the session.");
  }, 500);
  addEventListener("online", probe);
  document.addEventListener("visibilitychange", () => document.hidden || probe());
  // A link's secret is good for one use: the bridge hands out the user and the token that it stands for.
  const redeem = ({ user: name, token }) => {
    keepLink(null);
    drop();
    join(name, token);
  };
  const join = (name, token) => {
    remember(name, token);
    wait = 0;
    say("Joining ..");
    attach();
  };
  login.addEventListener("submit", (event) => {
    event.preventDefault();
    const token = it("token").value.trim();
    it("token").value = it("file").value = "";
    it("chosen").textContent = it("wrong").textContent = "";
    join(it("name").value.trim().toLowerCase(), token);
  });
  // A file NAME.token of new-token.  It replaces what the fields had.
  it("file").addEventListener("change", async (event) => {
    const [file] = event.target.files;
    if (!file) return;
    const text = (await file.slice(0, 100).text()).trim();
    const isToken = /^[0-9a-f]{64}$/.test(text);
    it("token").value = isToken ? text : "";
    it("name").value = isToken ? file.name.replace(/( \(\d+\))?\.token.*$/, "") : "";
    it("chosen").textContent = isToken ? "" : `${file.name} has no key: choose the file NAME.token that you got.`;
    it("wrong").textContent = "";
    say("");
    if (isToken && it("name").checkValidity()) login.requestSubmit();
    event.target.value = "";
  });
  addEventListener("hashchange", () => location.reload());
  // C-w closes a tab, whatever its page does: so the browser asks first.
  addEventListener("beforeunload", (event) => {
    if (alive && !watching) event.preventDefault();
  });
  new ResizeObserver(resize).observe(frame);
  // Some phones lay their keyboard over a page, and tell only this of it.
  const lay = () => document.body.style.setProperty("height", visualViewport.height * visualViewport.scale + "px");
  visualViewport.addEventListener("resize", lay);
  document.body.classList.toggle("watching", watching);
  say("");
  // A link has a secret behind its #, or a name and a token, which no server sees.  It leaves the address bar;
  // a browser's history may keep it.
  const link = /^#(?:([a-z][a-z0-9_]{0,19})[:=])?([0-9a-f]{64})$/.exec(location.hash);
  const unused = link ? link[2] : kept("mux link");
  if (link) history.replaceState(null, "", location.pathname);
  const old = kept("mux"), [last, raised] = kept("mux turn") || [null, []];
  if (watching || old) [turn, hands] = [last, new Set(raised)];
  if (watching) attach();
  else if (!isSecureContext) say("This page takes no key over plain http: open it by https.", true);
  else if (link && link[1]) join(link[1], link[2]);
  else if (unused) {
    keepLink(unused);
    say("Joining ..");
    attach();
  } else if (old) join(old.name, old.token);
  else {
    login.hidden = false;
    if (location.hash.length > 1) say("This link isn't whole: ask for it again.", true);
    it("file").focus();
  }
})();
