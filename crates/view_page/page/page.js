'use strict';
/* The page of a run. The program writes the run as JSON: a header (names, symbols), and rows of numbers: what is seen before the first
   event, and an entry for each event or for a stretch of quiet Steps. Everything else is made here: lanes, words, causes.

   1 words and codes   2 reading a run   3 lanes   4 axes   5 drawing   6 words of an event   7 causes   8 search   9 the page */

// ---- 1 words and codes: crates/view_page/specs/Entries.antt says what each number is
const EVENTS = ['step', 'step', 'raise', 'bell', 'stop', 'go', 'stepi', 'set', 'setpc'];
const LOUD_EVENTS = { 72: 'tick', 73: 'poke', 74: 'break', 75: 'unbreak' };
const CLOCK = 72, POKE = 73, PLACES = 99;
const RAM = 0x80000000;
const NEWEST = 3; // profile
const STAGES = ['out-of-band', 'in-band'], READY = ['ready-0', 'ready-1'];
const FAULTS = { 0: 'a jump to an address that is no multiple of 4', 1: 'a fetch from outside RAM', 2: 'a word that is no instruction', 5: 'a load from outside memory', 7: 'a store to outside memory' };
const NOTICES = ['', 'demoted by a call', 'demoted by a fault', 'its lock would never end', 'it unlocked a mutex that it does not own', 'the watchdog demoted the task'];
const CLASSES = ['no class', 'first in first out', 'round robin', 'weak'];
const DEVICES = ['console device', 'mailbox', 'pins'];
// what is waited for: the word, and the lane's letter
const WAITS = ['', 'line', 'mutex', 'mutex', 'semaphore', 'event object', 'flag group', 'a tick', 'timer'];
const LOCK = 2, RETAKE = 3, SEMAPHORE = 4, EVENT = 5, FLAGS = 6, SLEEP = 7, TIMER = 8, LINE = 1;
// a call: its name, its arguments, and of a put, post or signal the kind of wait that it ends
const CALLS = {
  0: ['exit', []], 1: ['putc', ['byte']], 2: ['yield_now', []], 3: ['spawn', ['entry', 'value', 'processor']], 4: ['stall in-band', []], 5: ['unstall in-band', []],
  6: ['wait_line', ['line']], 7: ['attach', ['class', 'priority']], 8: ['detach', []], 9: ['new_mutex', ['kind', 'ceiling']], 10: ['new_semaphore', ['count']],
  11: ['new_event', []], 12: ['new_flags', []], 13: ['new_timer', []], 14: ['set_line', ['line', 'action', 'object']],
  32: ['switch_oob', []], 33: ['switch_in_band', []], 34: ['set_sched', ['task', 'class', 'priority']], 35: ['set_mode', ['bits']], 36: ['lock', ['mutex', 'deadline']],
  37: ['try_lock', ['mutex']], 38: ['unlock', ['mutex']], 39: ['sem_get', ['semaphore', 'deadline']], 40: ['sem_try_get', ['semaphore']], 41: ['sem_put', ['semaphore'], SEMAPHORE],
  42: ['event_wait', ['event', 'mutex', 'deadline']], 43: ['signal', ['event'], EVENT], 44: ['broadcast', ['event'], EVENT], 45: ['flags_wait', ['flag group', 'deadline']],
  46: ['flags_post', ['flag group', 'bits'], FLAGS], 47: ['sleep_until', ['tick']], 48: ['timer_set', ['timer', 'first', 'period']], 49: ['timer_wait', ['timer']],
  50: ['yield_oob', []], 51: ['stall out-of-band', []], 52: ['unstall out-of-band', []], 53: ['clock', []], 54: ['state_bits', []], 55: ['migrate', ['processor']],
};
// switch_in_band has no argument, but one number is written for it
const WRITTEN = { 33: 1 };
// the arguments that may have a name, by the kinds of names
const NAMED = { task: 0, mutex: LOCK, semaphore: SEMAPHORE, event: EVENT, 'flag group': FLAGS, timer: TIMER };
// what the object of set_line is, by its action
const ACTED_ON = { 1: 'semaphore', 2: 'flag group' };
const ERRNOS = { 1: 'EPERM', 3: 'ESRCH', 11: 'EAGAIN', 12: 'ENOMEM', 16: 'EBUSY', 22: 'EINVAL', 35: 'EDEADLK', 38: 'ENOSYS', 110: 'ETIMEDOUT' };
const PASSAGES = ['raised', 'received', 'played', 'played'];
// marks of lines: their code says which, of which processor, how far it came, and from OFTEN on how often is behind it
const ONCE = 1000, OFTEN = 4000;

// Of each part the numbers behind its code; of a call they depend on its number.
const LENGTHS = new Int32Array(256).fill(99);
for (const [length, codes] of Object.entries({ 1: [PLACES, 101, 110, 116, 119, 201], 2: [102, 113, 114, 117, 121], 3: [100, 103, 111, 112, 115, 118, 120, 202, 203], 5: [205], 7: [204] })) for (const code of codes) LENGTHS[code] = length;
// What stands before the parts of a row, by the code of its event.
const HEADS = new Int32Array(256).fill(3);
for (let code = 0; code < CLOCK; code += 1) HEADS[code] = code < 32 ? 2 : code < 56 ? 1 : code < 64 ? 4 : 3;
HEADS[CLOCK] = 1; HEADS[POKE] = 4;
const ARGUMENTS = Uint8Array.from({ length: 64 }, (_, call) => WRITTEN[call] ?? CALLS[call]?.[1].length ?? 0);
function partLength(row, i) {
  const part = row[i];
  if (part >= ONCE) return part >= OFTEN ? 1 : 0;
  return part === 200 ? 2 + (ARGUMENTS[row[i + 1]] ?? 0) : LENGTHS[part];
}
// Calls `see` for each part of a row: its code, and where its numbers begin.
function eachPart(row, see, size = row.length) {
  for (let i = HEADS[row[0]]; i < size; i += 1 + partLength(row, i)) see(row[i], i + 1);
}
// A mark of a line: how far it came, its processor, its number, how often.
function lineOf(part, row, i) {
  const once = part < OFTEN, place = part - (once ? ONCE : OFTEN);
  return { passage: place >> 9, cpu: (place >> 6) & 7, line: place & 63, once, times: once ? 1 : row[i] };
}
const hexadecimal = (n) => n.toString(16).padStart(8, '0');

// ---- 2 reading a run
// Whole numbers that are added one by one. It costs less than a list to add to, and nothing where the browser looks for what is in use.
class Numbers {
  constructor() { this.items = new Uint32Array(16); this.length = 0; }
  push(number) {
    if (this.length === this.items.length) {
      const more = new Uint32Array(this.length * 2);
      more.set(this.items);
      this.items = more;
    }
    this.items[this.length] = number;
    this.length += 1;
  }
  get all() { return this.items.subarray(0, this.length); }
}
/* The rows of a run, as JSON with a row on each line. A million arrays are slow to make and to keep, so all rows are read once, one behind the
   other, into one array. A row that is asked for later is parsed from its piece of the text. */
class Rows {
  constructor(text) {
    this.text = text;
    this.bytes = new Uint8Array(1 << 16); // some whole lines of the text, from `base` on: a character is a byte
    this.base = 0; this.end = 0; this.place = 0;
    this.length = 0; this.starts = new Numbers(); this.codes = new Numbers(); // how many are read, and of each where it begins and its first number
    this.row = []; this.size = 0; // what is read last: so many numbers, and behind them what is left of longer rows
  }
  // Takes the lines behind those that are read: as many as there is room for, or one.
  fill() {
    const { text } = this, begin = this.base + this.end, whole = text.lastIndexOf('\n', begin + this.bytes.length - 1) + 1;
    const stop = begin + this.bytes.length >= text.length ? text.length : whole > begin ? whole : text.indexOf('\n', begin) + 1 || text.length;
    if (stop - begin > this.bytes.length) this.bytes = new Uint8Array(stop - begin);
    this.end = new TextEncoder().encodeInto(text.slice(begin, stop), this.bytes).written;
    this.base = begin; this.place = begin ? 0 : 1;
  }
  // Reads the next row; false where there is none.
  next() {
    // behind a row are a comma and the end of its line, or a bracket
    if (this.place >= this.end - 2) this.fill();
    const { bytes, row, end } = this;
    let at = this.place, size = 0, number = 0;
    while (at < end && bytes[at] < 48) at += 1;
    if (at >= end || bytes[at] !== 91) return false;
    this.starts.push(this.base + at);
    for (at += 1; ; at += 1) {
      const byte = bytes[at];
      if (byte >= 48 && byte < 58) { number = number * 10 + byte - 48; continue; }
      row[size] = number; size += 1; number = 0;
      if (byte !== 44) break;
    }
    this.codes.push(row[0]);
    this.length += 1; this.size = size; this.place = at + 1;
    return true;
  }
  // A row that was read.
  get(k) {
    if (this.asked !== k) this.parsed = JSON.parse(this.text.slice(this.starts.items[k], this.text.indexOf(']', this.starts.items[k]) + 1));
    this.asked = k;
    return this.parsed;
  }
}
// Bars and marks by rising events, and what of them is not over. All lanes have the same fields, so that the browser's compiler knows them.
class Lane {
  constructor(run, key, order, name, kind, { cpu, stage, task, line, wait, number }) {
    this.key = key; this.order = order; this.name = name; this.kind = kind; this.run = run;
    this.bars = { from: new Numbers(), to: new Numbers(), what: [], note: [] };
    this.marks = { at: [], what: [] };
    this.alarms = []; // the events of marks that are alarms
    this.what = null; this.note = undefined; this.since = 0; // the bar that has no end yet
    this.cpu = cpu; this.stage = stage; this.task = task; this.line = line; this.wait = wait; this.number = number;
    this.stalls = kind === 'stage' ? { from: [], to: [] } : null; this.stalled = null;
    this.wire = false; this.log = false; this.merged = []; // of a line: where it is, and the raises that merge on the wire
    this.last = null; // the bar behind the last event
  }
}
class Run {
  constructor(about, rows, number) {
    this.about = about;
    this.rows = rows;
    this.number = number;
    this.symbols = about.symbols.map(([name, high, low, size, kind]) => ({ name, value: high * 4294967296 + low, size, kind }));
    this.source = about.lines; // [address, file, line, function] by rising addresses behind RAM's begin
    this.names = new Map(about.names.map(([kind, number, name]) => [kind * 256 + number, name]));
    this.count = 0; // events
    this.first = new Numbers(); // of each entry, its first event
    this.warned = []; // the events that have an alarm, of which `warningsOf` may say more
    this.ticks = []; // the events that are ticks
    this.lanes = [];
    this.byKey = new Map();
    this.tasks = [];
    this.marks = {}; // of each kind and number the events that have such a mark, in their order
    this.pokes = new Map(); // of each entry that is a poke, its bytes
    this.text = [];
    this.read();
  }
  // The lane of a key, which is made where it is named first.
  lane(key, order, name, kind, extra = {}) {
    let lane = this.byKey.get(key);
    if (!lane) {
      lane = new Lane(this, key, order, name, kind, extra);
      this.byKey.set(key, lane);
      this.lanes.push(lane);
    }
    return lane;
  }
  noted(kind, number, event) {
    const lists = (this.marks[kind] ??= []), list = (lists[number] ??= []);
    if (list[list.length - 1] !== event) list.push(event);
  }
  read() {
    this.first.push(0);
    this.rows.next();
    const start = this.rows.get(0);
    [this.profile, this.watchdog, this.cpus, this.ram, this.capacity] = start;
    this.stages = [];
    this.lineLanes = [];
    for (let cpu = 0; cpu < this.cpus; cpu += 1) {
      for (const stage of [0, 1]) this.stages.push(this.lane(`cpu${cpu}.${stage}`, cpu * 100 + stage, `cpu ${cpu} ${STAGES[stage]}`, 'stage', { cpu, stage }));
    }
    this.state = { running: [], waits: new Map(), due: new Map() };
    let i = 5;
    while (i < start.length) {
      if (start[i] === 204) this.newTask(start, i + 1, 0);
      if (start[i] === 100) this.runs(start[i + 1], start[i + 2], start[i + 3], 0);
      i += 1 + partLength(start, i);
    }
    const { rows } = this, { row } = rows;
    let event = 0;
    for (let k = 1; rows.next(); k += 1) {
      const code = row[0], { size } = rows, quiet = code < 8, count = quiet && size > 3 && row[2] === PLACES ? row[3] : 1;
      if (code === POKE) this.pokes.set(k, this.about.pokes[this.pokes.size]);
      this.first.push(event);
      if (!quiet || size > 4) this.readEntry(row, size, event);
      event += count;
    }
    this.count = event;
    this.first.push(event);
    this.end();
  }
  // Of each entry how many Steps stand before it, and of all of them at the end.
  get steps() {
    if (this.summed) return this.summed;
    const { codes, length } = this.rows, { first } = this, isStep = (code) => code < 16 || (code >= 48 && code < 56);
    this.summed = new Float64Array(length + 1);
    for (let k = 1; k < length; k += 1) this.summed[k + 1] = this.summed[k] + (isStep(codes[k]) ? first[k + 1] - first[k] : 0);
    return this.summed;
  }
  get allSteps() { return this.steps[this.rows.length]; }
  stageLane(cpu, stage) { return this.stages[cpu * 2 + stage]; }
  newTask(row, i, event) {
    const [task, cpu, stage, rank, kind, priority, place] = row.slice(i, i + 7);
    this.tasks[task] = { number: task, cpu, stage, rank, kind, priority, place, created: event };
    this.bar(this.taskLane(task), event, READY[stage]);
  }
  // The bar that is open on a lane ends, and another begins, or none.
  bar(lane, event, what, note) {
    if (lane.what === what && lane.note === note) return;
    const { bars } = lane;
    if (lane.what !== null && event > lane.since) { bars.from.push(lane.since); bars.to.push(event); bars.what.push(lane.what); bars.note.push(lane.note); }
    lane.what = what; lane.note = note; lane.since = event;
  }
  // A mark that is no alarm, and one that may be.
  plain(lane, event, what) { lane.marks.at.push(event); lane.marks.what.push(what); }
  mark(lane, event, what) {
    this.plain(lane, event, what);
    if (ALARMS.has(what)) { lane.alarms.push(event); if (this.warned[this.warned.length - 1] !== event) this.warned.push(event); }
  }
  taskLane(task) { return this.byKey.get(`task${task}`) ?? this.lane(`task${task}`, 2000 + task, this.laneName('task', 0, task), 'task', { task }); }
  // A word and a number, and behind them the name that the program gives.
  laneName(word, kind, number) {
    const name = this.names.get(kind * 256 + number);
    return `${word} ${number}${name ? ` ${name}` : ''}`;
  }
  // A processor runs a task on a stage, or none.
  runs(cpu, task, stage, event) {
    const before = this.state.running[cpu];
    if (before && before.task !== task) {
      const lane = this.taskLane(before.task);
      if (lane.what === 'running') this.bar(lane, event, READY[this.tasks[before.task]?.stage ?? before.stage]);
    }
    for (const s of [0, 1]) this.bar(this.stageLane(cpu, s), event, task !== null && s === stage ? 'runs' : null, task);
    this.state.running[cpu] = task === null ? null : { task, stage };
    if (task !== null) {
      if (this.tasks[task]) this.tasks[task].stage = stage;
      this.bar(this.taskLane(task), event, 'running', cpu * 2 + stage);
      this.noted('runs', task, event);
    }
  }
  objectLane(kind, number) {
    const word = ['', 'line', 'mutex', 'mutex', 'semaphore', 'event', 'flags', '', 'timer'][kind];
    const group = kind === RETAKE ? LOCK : kind;
    return this.lane(`${word}${number}`, 3000 + group * 100 + number, this.laneName(word, group, number), 'object', { wait: group, number });
  }
  // The marks of an event: what they change is told to the lanes, from the event behind it on.
  readEntry(row, size, event) {
    const after = event + 1;
    let called = 0, runs = 0;
    this.row = row; this.size = size;
    for (let at = HEADS[row[0]]; at < size; at += 1 + partLength(row, at)) {
      const part = row[at], i = at + 1;
      if (part >= ONCE) { this.readLine(part, row, i, event); continue; }
      switch (part) {
        case 100: case 101: runs += 1; break;
        case 111: this.waits(row[i], row[i + 1], row[i + 2], event); break;
        case 112: this.wakes(row[i], row[i + 1], row[i + 2], event); break;
        case 113: this.mark(this.taskLane(row[i]), event, 'deadline'); break;
        case 114: if (this.tasks[row[i]]) this.tasks[row[i]].stage = row[i + 1]; this.ready(row[i], after); break;
        case 115: this.mark(this.taskLane(row[i]), event, row[i + 1] < row[i + 2] ? 'rises' : 'falls'); break;
        case 116: this.bar(this.taskLane(row[i]), after, null); this.mark(this.taskLane(row[i]), event, 'ended'); break;
        case 117: this.bar(this.taskLane(row[i]), after, null); this.mark(this.taskLane(row[i]), event, 'faulted'); break;
        case 118: this.owns(row[i], row[i + 1], row[i + 2], event); break;
        case 119: this.ticks.push(event); this.mark(this.lane('clock', 5000, 'clock', 'clock'), event, 'tick'); break;
        case 121: this.mark(this.taskLane(row[i]), event, 'migrates'); if (this.tasks[row[i]]) this.tasks[row[i]].cpu = row[i + 1]; break;
        case 120: this.mark(this.taskLane(row[i + 1]), event, 'notice'); break;
        case 102: this.mark(this.lane('debugger', 5001, 'debugger', 'clock'), event, row[i + 1] ? 'stopped' : 'goes'); break;
        case 103: this.stalls(row[i], row[i + 1], row[i + 2], after); break;
        case 200: called = i; break;
        case 202: if (row[i] === 0) this.write(row[i + 2] & 255, event); this.mark(this.deviceLane(row[i]), event, 'put'); break;
        case 203: this.mark(this.deviceLane(row[i]), event, 'fetch'); break;
        case 204: this.newTask(row, i, after); this.mark(this.taskLane(row[i]), event, 'created'); break;
        case 205: this.timer(row, i, event); break;
      }
    }
    // who runs is said behind what became of tasks
    for (let at = HEADS[row[0]]; runs && at < size; at += 1 + partLength(row, at)) {
      if (row[at] === 100) this.runs(row[at + 1], row[at + 2], row[at + 3], after);
      if (row[at] === 101) this.runs(row[at + 1], null, null, after);
    }
    if (called) this.called(row[called], row[called + 1], row[called + 2], event);
    if (row[0] >= 73 || (row[0] >= 56 && row[0] < 72)) this.mark(this.lane('debugger', 5001, 'debugger', 'clock'), event, 'changes');
  }
  ready(task, event) {
    const lane = this.taskLane(task);
    if (lane.what === 'running') this.bar(lane, event, 'running', (lane.note & ~1) | (this.tasks[task]?.stage ?? 1));
    else this.bar(lane, event, READY[this.tasks[task]?.stage ?? 1]);
  }
  waits(task, kind, number, event) {
    this.bar(this.taskLane(task), event + 1, 'waits', (this.tasks[task]?.stage ?? 1) * 65536 + kind * 256 + number);
    this.noted('waits', task, event);
    if (kind === SLEEP) return;
    const key = (kind === RETAKE ? LOCK : kind) * 256 + number;
    this.noted('waits-for', key, event);
    const lane = this.objectLane(kind, number);
    this.waiter(lane, key, task, event + 1, true);
  }
  // How many wait for an object is a bar of its lane; of a mutex the owner is.
  waiter(lane, key, task, event, on) {
    let list = this.state.waits.get(key) ?? [];
    list = on ? [...list, task] : list.filter((one) => one !== task);
    this.state.waits.set(key, list);
    const target = lane.wait === LOCK ? this.lane(`${lane.key}.waiters`, lane.order + 0.5, `${lane.name} waiters`, 'waiters', { number: lane.number }) : lane;
    this.bar(target, event, list.length ? 'waiting' : null, list.length ? list.join(' ') : undefined);
  }
  wakes(task, kind, number, event) {
    this.noted('woken', task, event);
    this.mark(this.taskLane(task), event, 'woken');
    this.ready(task, event + 1);
    if (kind === SLEEP) return;
    const key = (kind === RETAKE ? LOCK : kind) * 256 + number;
    this.waiter(this.objectLane(kind, number), key, task, event + 1, false);
  }
  owns(mutex, from, to, event) {
    const lane = this.objectLane(LOCK, mutex);
    this.bar(lane, event + 1, to ? 'owned' : null, to ? to - 1 : undefined);
    this.noted('owner', mutex, event);
  }
  stalls(cpu, stage, on, event) {
    const lane = this.stageLane(cpu, stage);
    if (on) lane.stalled = event;
    else if (lane.stalled !== null) { lane.stalls.from.push(lane.stalled); lane.stalls.to.push(event); lane.stalled = null; }
  }
  lineLane(cpu, line) { return (this.lineLanes[cpu * 64 + line] ??= this.lane(`line${cpu}.${line}`, cpu * 100 + 10 + line, `cpu ${cpu} line ${line}`, 'line', { cpu, line })); }
  readLine(part, row, i, event) {
    const { passage, cpu, line, once } = lineOf(part, row, i), lane = this.lineLane(cpu, line);
    if (passage === 0) {
      const merged = lane.wire;
      if (merged || !once) this.mark(lane, event, 'merged'); else this.plain(lane, event, 'raised');
      if (merged) lane.merged.push(event);
      else this.bar(lane, event, 'wire');
      lane.wire = true;
    } else if (passage === 1) {
      // one that is in the log already merges there
      const merged = lane.log;
      lane.wire = false; lane.log = true;
      if (merged) this.mark(lane, event, 'merges'); else this.plain(lane, event, 'received');
      this.bar(lane, event, 'log');
    } else {
      const lost = passage === 3 && !this.wakesLine(line);
      lane.log = false;
      if (lost) this.mark(lane, event, 'lost'); else this.plain(lane, event, 'played');
      this.bar(lane, event, lane.wire ? 'wire' : null);
      const stage = this.stages[cpu * 2 + passage - 2];
      if (lost) this.mark(stage, event, 'lost'); else this.plain(stage, event, 'played');
    }
  }
  // Whether the entry that is read wakes a task that waited for a line; lines 0 and 1 are the kernels' own.
  wakesLine(line) { return line < 2 || this.hasWait(112, LINE, line); }
  // Whether the entry that is read begins (111) or ends (112) a wait of a kind, for one object or for any.
  hasWait(code, kind, number) {
    const { row, size } = this;
    for (let i = HEADS[row[0]]; i < size; i += 1 + partLength(row, i)) if (row[i] === code && row[i + 2] === kind && (number === undefined || row[i + 3] === number)) return true;
    return false;
  }
  // A put, post or signal: hollow where it woke nobody.
  called(number, outcome, object, event) {
    const wait = CALLS[number]?.[2];
    if (number === 1 && outcome >= 2) this.write(object & 255, event);
    if ((number === 39 || number === 40) && outcome === 2) this.noted('takes', SEMAPHORE * 256 + object, event);
    if (!wait || outcome < 2 || (outcome - 2) % 2) return;
    const key = wait * 256 + object;
    // a task that waited for an event may wait for its mutex now
    const hollow = !this.hasWait(112, wait, object) && !(wait === EVENT && this.hasWait(111, RETAKE));
    this.mark(this.objectLane(wait, object), event, hollow ? 'hollow' : 'puts');
    this.noted(hollow ? 'hollow' : 'puts', key, event);
  }
  deviceLane(number) { return this.lane(`device${number}`, 4000 + number, DEVICES[number] ?? `device ${number}`, 'clock', {}); }
  write(byte, event) {
    const lane = this.lane('console', 4999, 'console', 'text', {});
    this.mark(lane, event, 'text');
    this.text.push(byte >= 32 && byte < 127 ? String.fromCharCode(byte) : byte === 10 ? '\\n' : '.');
  }
  timer(row, i, event) {
    const [number, , due, , expiries] = row.slice(i, i + 5);
    const before = this.state.due.get(number) ?? { due: 0, expiries: 0 };
    this.state.due.set(number, { due, expiries });
    const lane = this.objectLane(TIMER, number);
    // an expiry adds one, or gives it to a waiter at once; what a call sets is no expiry
    let isSet = false;
    eachPart(row, (part, j) => { if (part === 200 && (row[j] === 48 || row[j] === 13) && (row[j] === 13 || row[j + 2] === number)) isSet = true; }, this.size);
    const overrun = !isSet && expiries > before.expiries && before.expiries > 0;
    const expired = !isSet && (expiries > before.expiries || due !== before.due);
    this.mark(lane, event, overrun ? 'overrun' : expired ? 'expired' : isSet ? 'set' : 'taken');
    this.noted(expired || overrun ? 'expired' : isSet ? 'set' : 'taken', number, event);
  }
  end() {
    for (const lane of this.lanes) {
      lane.last = lane.what === null ? null : { from: lane.since, what: lane.what, note: lane.note };
      this.bar(lane, this.count + 1, null);
      if (lane.stalled !== null) { lane.stalls.from.push(lane.stalled); lane.stalls.to.push(this.count + 1); }
      lane.bars.from = lane.bars.from.all; lane.bars.to = lane.bars.to.all;
    }
    this.first = this.first.all; this.rows.codes = this.rows.codes.all;
    this.lanes.sort((one, two) => one.order - two.order);
  }
  // The entry that has an event.
  at(event) { return Math.max(1, lastUpTo(this.first, event, this.rows.length - 1)); }
  // The task that the processor of an event runs before it; null where it runs none, or the event is of no processor.
  callerAt(event) {
    const code = this.rows.codes[this.at(event)];
    if (code >= 16 && (code < 48 || code >= 56)) return null;
    for (const { bars } of [0, 1].map((stage) => this.stageLane(code & 7, stage))) {
      const i = below(bars.to, event + 0.5);
      if (i < bars.from.length && bars.from[i] <= event) return bars.note[i];
    }
    return null;
  }
  symbolAt(address) {
    let best = null;
    for (const s of this.symbols) {
      if (s.kind > 2 || s.value > address) continue;
      const holds = s.kind < 2 && address < s.value + Math.max(s.size, 1);
      if (s.kind === 2 || holds) {
        const better = !best || (holds && !best.holds) || (holds === best.holds && s.value > best.s.value);
        if (better) best = { s, holds };
      }
    }
    return best ? { name: best.s.name, offset: address - best.s.value } : null;
  }
  // The line of a source that the code at an address comes from, as `queue.c:41 (evl_get_sem)`.
  lineAt(address) {
    let low = 0, high = this.source.length;
    while (low < high) { const middle = (low + high) >> 1; if (this.source[middle][0] <= address - RAM) low = middle + 1; else high = middle; }
    const found = low ? this.source[low - 1] : [0];
    return found.length > 1 ? `${found[1]}:${found[2]}${found[3] && ` (${found[3]})`}` : '';
  }
  // Of a kind and a number, as `semaphore 0 (slots)`.
  named(word, kind, number) {
    const name = this.names.get(kind * 256 + number);
    return `${word} ${number}${name ? ` (${name})` : ''}`;
  }
  taskName(task) { return this.named('task', 0, task); }
  waitName(kind, number) { return kind === SLEEP ? WAITS[kind] : this.named(WAITS[kind], kind === RETAKE ? LOCK : kind, number); }
}

// ---- 3 lanes: searching in sorted lists
function below(list, value) { // how many are less than it
  let low = 0, high = list.length;
  while (low < high) { const middle = (low + high) >> 1; if (list[middle] < value) low = middle + 1; else high = middle; }
  return low;
}
// As `below`, where the answer is known not to be before a place: it is looked for near to it first.
function seek(list, value, low) {
  let high = low;
  for (let step = 1; high < list.length && list[high] < value; step *= 2) { low = high + 1; high += step; }
  high = Math.min(high, list.length);
  while (low < high) { const middle = (low + high) >> 1; if (list[middle] < value) low = middle + 1; else high = middle; }
  return low;
}
const before = (list, value) => { const at = below(list ?? [], value); return at ? list[at - 1] : null; };
const from = (list, value) => { const at = below(list ?? [], value); return at < (list ?? []).length ? list[at] : null; };
function lastUpTo(list, value, high) { // the last place up to `high` of what is not more than it
  let low = 0;
  while (low < high) { const middle = (low + high + 1) >> 1; if (list[middle] <= value) low = middle; else high = middle - 1; }
  return low;
}
// The same for the marks of a lane, of these kinds alone.
function markBefore({ marks: { at, what } }, event, kinds) { let i = below(at, event) - 1; while (i >= 0 && !kinds.includes(what[i])) i -= 1; return i < 0 ? null : at[i]; }
function markFrom({ marks: { at, what } }, event, kinds) { let i = below(at, event); while (i < at.length && !kinds.includes(what[i])) i += 1; return i < at.length ? at[i] : null; }
const RAISED = ['raised', 'merged'], RECEIVED = ['received', 'merges'], PLAYED = ['played', 'lost'];

// ---- 4 axes: where an event is, in events, Steps or ticks, and the other way round
class Axis {
  constructor(run, kind) { this.run = run; this.kind = kind; }
  // where the last event ends, and how much behind it shows what it left
  get last() { return this.kind === 'events' ? this.run.count : this.kind === 'steps' ? this.run.allSteps : this.run.ticks.length + 1; }
  get rest() { return Math.max(this.kind === 'ticks' ? 0 : 1, this.last * 0.02); }
  get end() { return this.last + this.rest; }
  position(event) {
    const run = this.run;
    if (event >= run.count) return this.last + Math.min(1, event - run.count) * this.rest;
    if (this.kind === 'events') return event;
    if (this.kind === 'steps') {
      const k = run.at(event), most = run.steps[k + 1] - run.steps[k];
      return run.steps[k] + Math.min(event - run.first[k], most);
    }
    const tick = below(run.ticks, event + 0.5), start = tick ? run.ticks[tick - 1] : 0, stop = tick < run.ticks.length ? run.ticks[tick] : run.count;
    return tick + (event - start) / Math.max(1, stop - start);
  }
  event(position) {
    const run = this.run;
    if (position >= this.last) return run.count + Math.min(1, (position - this.last) / this.rest);
    if (this.kind === 'events') return position;
    if (position <= 0) return 0;
    if (this.kind === 'steps') {
      const low = Math.max(1, lastUpTo(run.steps, position, run.rows.length - 1));
      return run.first[low] + Math.min(position - run.steps[low], run.first[low + 1] - run.first[low]);
    }
    const tick = Math.floor(position), start = tick ? run.ticks[tick - 1] : 0, stop = tick < run.ticks.length ? run.ticks[tick] : run.count;
    return start + (position - tick) * (stop - start);
  }
}

// ---- 5 drawing: the same calls draw on the canvas and write SVG
class CanvasPen {
  constructor(context) { this.context = context; }
  rectangle(x, y, w, h, fill, stroke) {
    const c = this.context;
    if (fill) { c.fillStyle = fill; c.fillRect(x, y, w, h); }
    if (stroke) { c.strokeStyle = stroke; c.lineWidth = 1; c.strokeRect(x + 0.5, y + 0.5, w - 1, h - 1); }
  }
  line(x, y, u, v, stroke, width = 1, dash = []) {
    const c = this.context;
    c.strokeStyle = stroke; c.lineWidth = width; c.setLineDash(dash);
    c.beginPath(); c.moveTo(x, y); c.lineTo(u, v); c.stroke(); c.setLineDash([]);
  }
  shape(points, fill, stroke) {
    const c = this.context;
    c.beginPath(); points.forEach(([x, y], i) => (i ? c.lineTo(x, y) : c.moveTo(x, y))); c.closePath();
    if (fill) { c.fillStyle = fill; c.fill(); }
    if (stroke) { c.strokeStyle = stroke; c.lineWidth = 1.5; c.stroke(); }
  }
  circle(x, y, r, fill, stroke) {
    const c = this.context;
    c.beginPath(); c.arc(x, y, r, 0, 7);
    if (fill) { c.fillStyle = fill; c.fill(); }
    if (stroke) { c.strokeStyle = stroke; c.lineWidth = 1.5; c.stroke(); }
  }
  text(x, y, text, fill, size = 11, bold = false) { const c = this.context; c.fillStyle = fill; c.font = `${bold ? '600 ' : ''}${size}px ${FONT}`; c.fillText(text, x, y); }
  clip(x, y, w, h) { const c = this.context; c.save(); c.beginPath(); c.rect(x, y, w, h); c.clip(); }
  unclip() { this.context.restore(); }
}
const COLOURS = ['paper', 'band', 'ink', 'dim', 'rule', 'ready', 'wait', 'stall', 'mark', 'alarm', 'good'];
const FONT = "ui-monospace, Menlo, Consolas, 'DejaVu Sans Mono', monospace";
const escaped = (text) => String(text).replace(/[&<>"]/g, (c) => ({ '&': '&amp;', '<': '&lt;', '>': '&gt;', '"': '&quot;' })[c]);
class SvgPen {
  constructor() { this.parts = []; this.clips = 0; }
  rectangle(x, y, w, h, fill, stroke) { this.parts.push(`<rect x="${x.toFixed(1)}" y="${y.toFixed(1)}" width="${Math.max(0, w).toFixed(1)}" height="${h.toFixed(1)}" fill="${fill || 'none'}"${stroke ? ` stroke="${stroke}"` : ''}/>`); }
  line(x, y, u, v, stroke, width = 1, dash = []) { this.parts.push(`<path d="M${x.toFixed(1)} ${y.toFixed(1)}L${u.toFixed(1)} ${v.toFixed(1)}" stroke="${stroke}" stroke-width="${width}"${dash.length ? ` stroke-dasharray="${dash.join(' ')}"` : ''} fill="none"/>`); }
  shape(points, fill, stroke) { this.parts.push(`<path d="M${points.map(([x, y]) => `${x.toFixed(1)} ${y.toFixed(1)}`).join('L')}Z" fill="${fill || 'none'}"${stroke ? ` stroke="${stroke}" stroke-width="1.5"` : ''}/>`); }
  circle(x, y, r, fill, stroke) { this.parts.push(`<circle cx="${x.toFixed(1)}" cy="${y.toFixed(1)}" r="${r}" fill="${fill || 'none'}"${stroke ? ` stroke="${stroke}" stroke-width="1.5"` : ''}/>`); }
  text(x, y, text, fill, size = 11, bold = false) { this.parts.push(`<text x="${x.toFixed(1)}" y="${y.toFixed(1)}" fill="${fill}" font-size="${size}"${bold ? ' font-weight="600"' : ''}>${escaped(text)}</text>`); }
  clip(x, y, w, h) { this.clips += 1; this.parts.push(`<clipPath id="c${this.clips}"><rect x="${x}" y="${y}" width="${w}" height="${h}"/></clipPath><g clip-path="url(#c${this.clips})">`); }
  unclip() { this.parts.push('</g>'); }
  document(w, h) { return `<svg xmlns="http://www.w3.org/2000/svg" viewBox="0 0 ${w} ${h}" width="${w}" height="${h}" font-family="${escaped(FONT)}">${this.parts.join('\n')}</svg>`; }
}
// colours of tasks, and that of the text on them
const TASKS = ['#56b4e9', '#e69f00', '#009e73', '#f0e442', '#0072b2', '#d55e00', '#cc79a7', '#999999'];
const ON_TASKS = ['#000', '#000', '#fff', '#000', '#fff', '#fff', '#000', '#000'];
const LANE = 22, GUTTER = 170, RULER = 22;

// How a bar looks: its colour, whether it is only framed, its text.
function barLook(lane, what, note, colours) {
  const task = (n) => ({ fill: TASKS[n % 8], ink: ON_TASKS[n % 8] });
  switch (what) {
    case 'runs': return { ...task(note), text: lane.run.taskName(note).replace('task ', '') };
    case 'owned': return { ...task(note), text: lane.run.taskName(note) };
    case 'running': return { ...task(lane.task), text: `runs${note & 1 ? ' in-band' : ''}${lane.run.cpus > 1 ? ` on cpu ${note >> 1}` : ''}`, low: (note & 1) === 1 };
    case 'ready-0': return { fill: colours.ready, ink: colours.ink, text: 'ready' };
    case 'ready-1': return { fill: colours.ready, ink: colours.ink, text: 'ready in-band', low: true };
    case 'waits': return { fill: colours.wait, frame: colours.alarm, ink: colours.ink, text: `waits${note >> 16 ? ' in-band' : ''}: ${lane.run.waitName((note >> 8) & 255, note & 255)}`, thin: true };
    case 'waiting': return { fill: colours.wait, frame: colours.alarm, ink: colours.ink, text: `waits: ${note.split(' ').map((task) => lane.run.taskName(Number(task))).join(', ')}`, thin: true };
    case 'wire': return { fill: colours.alarm, ink: colours.ink, text: '', narrow: true };
    case 'log': return { fill: colours.ready, ink: colours.ink, text: '', thin: true };
    default: return { fill: colours.ready, ink: colours.ink, text: '' };
  }
}

// The sign of a mark, centred.
function sign(pen, what, x, y, colours) {
  const triangle = (up) => (up ? [[x - 5, y + 5], [x + 5, y + 5], [x, y - 5]] : [[x - 5, y - 5], [x + 5, y - 5], [x, y + 5]]);
  const diamond = [[x, y - 6], [x + 6, y], [x, y + 6], [x - 6, y]];
  switch (what) {
    case 'raised': pen.shape(triangle(false), colours.alarm); break;
    case 'merged': pen.shape(triangle(false), colours.paper, colours.alarm); pen.line(x - 5, y + 6, x + 5, y + 6, colours.alarm, 1.5); break;
    case 'received': pen.circle(x, y, 4.5, colours.paper, colours.ink); break;
    case 'merges': pen.circle(x, y, 4.5, colours.paper, colours.alarm); pen.line(x - 5, y + 7, x + 5, y + 7, colours.alarm, 1.5); break;
    case 'played': pen.circle(x, y, 4, colours.ink); break;
    case 'lost': pen.circle(x, y, 4.5, colours.paper, colours.alarm); pen.line(x - 4, y + 4, x + 4, y - 4, colours.alarm, 1.5); break;
    case 'puts': pen.shape(diamond, colours.good); break;
    case 'hollow': pen.shape(diamond, colours.paper, colours.alarm); break;
    case 'woken': pen.shape(triangle(false), colours.good); break;
    case 'rises': pen.shape(triangle(true), colours.mark, colours.paper); break;
    case 'falls': pen.shape(triangle(false), colours.paper, colours.mark); break;
    case 'migrates': pen.line(x, y - 7, x, y + 7, colours.mark, 2); pen.shape([[x, y - 6], [x + 6, y - 2], [x, y + 2]], colours.mark); break;
    case 'created': case 'set': pen.line(x, y - 7, x, y + 7, colours.ink, 2); break;
    case 'ended': case 'taken': pen.line(x, y - 7, x, y + 7, colours.dim, 2); break;
    case 'expired': pen.circle(x, y, 4, colours.good); break;
    case 'tick': pen.line(x, y - 5, x, y + 5, colours.dim, 1); break;
    case 'put': pen.shape(triangle(true), colours.ink); break;
    case 'fetch': pen.shape(triangle(false), colours.ink); break;
    case 'faulted': case 'deadline': case 'notice': case 'overrun': case 'stopped':
      pen.rectangle(x - 5, y - 7, 10, 14, colours.alarm); pen.text(x - 2.5, y + 4, '!', colours.paper, 11, true); break;
    default: pen.rectangle(x - 3, y - 3, 6, 6, colours.ink);
  }
}
const SIGNS = ['raised', 'merged', 'received', 'merges', 'played', 'lost', 'puts', 'hollow', 'woken', 'rises', 'falls', 'migrates', 'stopped', 'expired'];
const SIGN_WORDS = { raised: 'a line is raised', merged: 'raised while it is on the wire: merged', received: 'received', merges: 'received while it is in the log: merged', played: 'played', lost: 'played in-band, and no task waited: lost', puts: 'a put, post or signal that woke a task',
  hollow: 'one that woke nobody', woken: 'a wait ends', rises: 'a rank rises', falls: 'a rank falls', migrates: 'a task moves to another processor', stopped: 'a stop, fault, deadline, notice or overrun', expired: 'a timer expires' };

class Chart {
  constructor(runs, kind) { this.runs = runs; this.setAxis(kind); this.from = 0; this.to = this.end; }
  setAxis(kind) { this.kind = kind; this.axes = this.runs.map((run) => new Axis(run, kind)); this.end = Math.max(...this.axes.map((axis) => axis.end)); }
  get lanes() {
    return this.runs.flatMap((run, r) => (this.runs.length > 1 ? [{ heading: `${r ? 'beside: ' : ''}${run.about.journal}`, run }, ...run.lanes] : run.lanes));
  }
  x(run, event, width) { return GUTTER + ((this.axes[run.number].position(event) - this.from) / (this.to - this.from)) * (width - GUTTER); }
  // How much of the axis the event at a place takes: on the axis of Steps, an event that is none takes nothing.
  oneAt(place) { const axis = this.axes[0], event = Math.floor(axis.event(place)); return axis.position(event + 1) - axis.position(event) || 1; }
  eventAt(run, x, width) { return this.axes[run.number].event(this.from + ((x - GUTTER) / (width - GUTTER)) * (this.to - this.from)); }
  // Of each pixel of the width, the event that begins there.
  columns(run, width) {
    const n = Math.ceil(width - GUTTER) + 1, found = new Float64Array(n + 1);
    for (let p = 0; p <= n; p += 1) found[p] = this.eventAt(run, GUTTER + p, width);
    return found;
  }
  draw(pen, width, height, scroll, chosen, colours) {
    pen.rectangle(0, 0, width, height, colours.paper);
    const columns = this.runs.map((run) => this.columns(run, width));
    const lanes = this.lanes;
    lanes.forEach((lane, i) => {
      const y = RULER + i * LANE - scroll;
      if (y < RULER - LANE || y > height) return;
      if (lane.heading) { pen.rectangle(0, y, width, LANE, colours.rule); pen.text(6, y + 15, lane.heading, colours.ink, 12, true); return; }
      if (i % 2) pen.rectangle(0, y, width, LANE, colours.band);
      pen.clip(GUTTER, y, width - GUTTER, LANE);
      this.drawLane(pen, lane, y, width, columns[lane.run.number], colours);
      pen.unclip();
      if (lane === chosen.lane) pen.rectangle(0, y, GUTTER - 4, LANE, null, colours.mark);
      pen.text(8, y + 15, lane.name.length > 23 ? `${lane.name.slice(0, 22)}~` : lane.name, lane === chosen.lane ? colours.mark : colours.ink, 11.5, lane === chosen.lane);
    });
    this.drawRuler(pen, width, colours);
    this.drawChosen(pen, width, height, chosen, colours);
    pen.line(GUTTER - 0.5, 0, GUTTER - 0.5, height, colours.rule);
  }
  drawRuler(pen, width, colours) {
    pen.rectangle(0, 0, width, RULER, colours.paper);
    const span = this.to - this.from, rough = span / Math.max(1, (width - GUTTER) / 110), power = 10 ** Math.floor(Math.log10(rough));
    const step = Math.max(1, [1, 2, 5, 10].map((n) => n * power).find((n) => n >= rough));
    pen.text(8, 15, { events: 'event', steps: 'Step', ticks: 'tick' }[this.kind], colours.dim);
    const begin = Math.ceil(this.from / step) * step;
    if (begin > this.to) pen.text(GUTTER + 3, 15, `in ${Math.floor(this.from).toLocaleString('en')}`, colours.dim);
    for (let at = begin; at <= this.to; at += step) {
      const x = GUTTER + ((at - this.from) / span) * (width - GUTTER);
      pen.line(x, RULER - 5, x, RULER, colours.dim);
      pen.text(x + 3, 15, at.toLocaleString('en'), colours.dim);
    }
    pen.line(0, RULER - 0.5, width, RULER - 0.5, colours.rule);
  }
  drawLane(pen, lane, y, width, columns, colours) {
    this.drawBars(pen, lane, y, width, columns, colours);
    if (lane.stalls) this.drawStalls(pen, lane, y, width, columns, colours);
    if (lane.kind === 'text') this.drawText(pen, lane, y, width, columns, colours);
    else this.drawMarks(pen, lane, y, width, columns, colours);
  }
  drawBars(pen, lane, y, width, columns, colours) {
    const bars = lane.bars, last = columns[columns.length - 1];
    const one = below(bars.to, columns[0]), two = below(bars.from, last);
    if (two - one <= width - GUTTER) {
      for (let i = one; i < two; i += 1) this.drawBar(pen, lane, i, this.x(lane.run, bars.from[i], width), this.x(lane.run, bars.to[i], width), y, width, colours);
      return;
    }
    // more bars than pixels: of each pixel the longest of the first that stand there
    const { from: begins, to: ends, what, note } = bars;
    let at = one, begun = 0, shown = -1;
    const flush = (p) => { if (shown >= 0) this.box(pen, barLook(lane, what[shown], note[shown], colours), GUTTER + begun, p - begun, y, true); };
    for (let p = 0; p + 1 < columns.length; p += 1) {
      const left = columns[p], right = columns[p + 1];
      at = seek(ends, left + 1e-9, at);
      let best = -1, long = 0;
      for (let i = at, most = Math.min(at + 12, begins.length); i < most && begins[i] < right; i += 1) {
        const length = Math.min(ends[i], right) - Math.max(begins[i], left);
        if (length > long) { long = length; best = i; }
      }
      if (shown < 0 || best < 0 || what[shown] !== what[best] || note[shown] !== note[best]) { flush(p); shown = best; begun = p; }
    }
    flush(columns.length - 1);
  }
  box(pen, look, x, w, y, many) {
    const top = look.narrow ? y + 9 : look.thin ? y + 6 : look.low ? y + 8 : y + 3, h = look.narrow ? 4 : look.thin ? LANE - 12 : look.low ? LANE - 11 : LANE - 6;
    pen.rectangle(x, top, Math.max(1, w), h, look.fill, w > 3 && !many ? look.frame : undefined);
    if (look.frame && (many || w <= 3)) pen.rectangle(x, top, Math.max(1, w), 1.5, look.frame);
  }
  drawBar(pen, lane, i, left, right, y, width, colours) {
    const look = barLook(lane, lane.bars.what[i], lane.bars.note[i], colours);
    const x = Math.max(left, GUTTER - 2), w = Math.min(right, width + 2) - x;
    this.box(pen, look, x, w - (w > 4 ? 1 : 0), y, false);
    const room = Math.floor((w - 8) / 6.7);
    if (look.text && room >= Math.min(3, look.text.length)) {
      const text = look.text.length <= room ? look.text : look.text.slice(0, room);
      pen.text(Math.max(x, GUTTER) + 4, y + (look.low ? 16 : 15), text, look.thin && !look.frame ? look.ink : look.ink, look.thin ? 9.5 : 11);
    }
  }
  drawStalls(pen, lane, y, width, columns, colours) {
    const { from: begins, to: ends } = lane.stalls, one = below(ends, columns[0]), two = below(begins, columns[columns.length - 1]);
    if (two - one > (width - GUTTER) / 8) { this.drawManyStalls(pen, lane, y, columns, colours); return; }
    for (let i = one; i < two; i += 1) {
      const x = Math.max(this.x(lane.run, begins[i], width), GUTTER), w = Math.max(1, this.x(lane.run, ends[i], width) - x);
      pen.rectangle(x, y + 1, w, LANE - 2, colours.stall);
      pen.line(x, y + LANE - 2, x + w, y + LANE - 2, colours.ink, 2, [3, 2]);
    }
  }
  // Of each second pixel whether the stage is stalled there.
  drawManyStalls(pen, lane, y, columns, colours) {
    const { from: begins, to: ends } = lane.stalls;
    for (let p = 0, i = 0; p + 1 < columns.length; p += 2) {
      i = seek(ends, columns[p] + 1e-9, i);
      if (i < begins.length && begins[i] <= columns[p]) pen.rectangle(GUTTER + p, y + 1, 1, LANE - 2, colours.stall);
    }
    pen.line(GUTTER, y + LANE - 2, GUTTER + columns.length, y + LANE - 2, colours.ink, 1, [2, 2]);
  }
  drawMarks(pen, lane, y, width, columns, colours) {
    const { at, what } = lane.marks, last = columns.length - 1;
    const one = below(at, columns[0] - 0.5), two = below(at, columns[last]);
    if (two - one <= (width - GUTTER) / 4) {
      for (let i = one; i < two; i += 1) {
        const x = (this.x(lane.run, at[i], width) + this.x(lane.run, at[i] + 1, width)) / 2;
        sign(pen, what[i], Math.min(x, this.x(lane.run, at[i], width) + 12), y + LANE / 2, colours);
      }
      return;
    }
    // more signs than there is room: how many, as a height; orange where one of them is an alarm
    for (let p = 0, i = one, near = 0; p < last; p += 2) {
      const right = columns[Math.min(last, p + 2)], end = seek(at, right, i);
      if (end > i) {
        near = seek(lane.alarms, at[i], near);
        const alarm = lane.alarms[near] < right;
        const h = Math.min(LANE - 6, 3 + 3 * Math.log2(end - i + 1));
        pen.rectangle(GUTTER + p, y + LANE - 3 - h, 2, h, alarm ? colours.alarm : colours.dim);
      }
      i = end;
    }
  }
  drawText(pen, lane, y, width, columns, colours) {
    const at = lane.marks.at, one = below(at, columns[0] - 0.5), two = below(at, columns[columns.length - 1]);
    const place = (i) => this.x(lane.run, at[i], width), stride = Math.max(1, Math.floor((two - one) / 4000));
    for (let i = one; i < two; ) {
      // what stands before a gap is one text, which is cut where there is no room; single characters where each has its own
      const begun = i, x = place(i);
      let end = x, next = x;
      for (i += stride; i < two && (next = place(i)) - end <= 40; i += stride) end = next;
      const count = Math.min(i, two) - begun, room = Math.max(1, Math.floor(((i < two ? next : width) - x) / 6.7));
      if (end - x >= 7 * (count - 1)) for (let j = begun; j < begun + count; j += 1) pen.text(place(j), y + 15, lane.run.text[j], colours.ink);
      else pen.text(x, y + 15, count <= room ? lane.run.text.slice(begun, begun + count).join('') : `${lane.run.text.slice(begun, begun + room - 1).join('')}~`, colours.ink);
    }
  }
  drawChosen(pen, width, height, chosen, colours) {
    for (const run of this.runs) {
      if (run.about.parts === undefined) continue;
      const x = this.x(run, run.about.parts, width);
      if (x >= GUTTER && x <= width) { pen.line(x, 0, x, height, colours.alarm, 2, [6, 3]); pen.text(x + 4, height - 6, `the runs part at event ${run.about.parts}`, colours.alarm, 11, true); }
    }
    if (chosen.event === null) return;
    const run = chosen.run, left = this.x(run, chosen.event, width), right = Math.max(left + 2, this.x(run, chosen.event + chosen.count, width));
    if (right >= GUTTER && left <= width) {
      pen.line(Math.max(left, GUTTER), RULER, Math.max(left, GUTTER), height, colours.mark, 1.5);
      if (right - left > 6) pen.line(right, RULER, right, height, colours.mark, 1, [2, 3]);
    }
    for (const link of chosen.links) this.drawArrow(pen, run, link, chosen, width, height, colours);
  }
  // An arrow from a cause to its effect, below the ruler.
  drawArrow(pen, run, link, chosen, width, height, colours) {
    const [one, two] = link.cause ? [link.event, chosen.event] : [chosen.event, link.event];
    const x = this.x(run, one + 0.5, width), u = this.x(run, two + 0.5, width), y = RULER + 5 + (link.cause ? 0 : 5);
    if (Math.max(x, u) < GUTTER || Math.min(x, u) > width) return;
    const a = Math.max(GUTTER, Math.min(width, x)), b = Math.max(GUTTER, Math.min(width, u));
    pen.line(a, y, b, y, colours.mark, 1.5);
    if (b === u) pen.shape([[b, y], [b - 6, y - 3.5], [b - 6, y + 3.5]], colours.mark);
    pen.line(x, RULER, x, height, colours.mark, 0.7, [1, 4]);
    pen.line(u, RULER, u, height, colours.mark, 0.7, [1, 4]);
  }
}
const ALARMS = new Set(['merged', 'merges', 'lost', 'hollow', 'faulted', 'deadline', 'notice', 'overrun', 'stopped']);

// ---- 6 words of an event
const times = (n) => (n > 1 ? `, ${n} times` : '');
const counted = (n, one, more) => `${n} ${n === 1 ? one : more}`;
function eventWords(run, k) {
  const row = run.rows.get(k), code = row[0], cpu = code & 7;
  const place = code < 16 ? placeWords(run, row[1]) : '';
  if (code < 8) { const n = run.first[k + 1] - run.first[k]; return `${n} Step${n > 1 ? 's' : ''} of processor ${cpu} that change only registers and RAM${place && `, from ${place}`}`; }
  if (code < 16) return `step ${cpu}${place && ` at ${place}`}`;
  return code === POKE ? `poke ${longAt(row, 1)}, ${row[3]} bytes` : eventLine(run, k);
}
// A number of 64 bits, which a row has in two halves, as scripts have it: without leading zeros.
const longAt = (row, i) => (row[i] ? row[i].toString(16) + row[i + 1].toString(16).padStart(8, '0') : row[i + 1].toString(16));
// The line of a script that makes an event which is no Step.
function eventLine(run, k) {
  const row = run.rows.get(k), code = row[0], cpu = code & 7;
  if (code < 32) return `${EVENTS[code >> 3]} ${cpu} ${row[1]}`;
  if (code < 56) return `${EVENTS[code >> 3]} ${cpu}`;
  if (code < 64) return `set ${cpu} ${row[3]} ${longAt(row, 1)}`;
  if (code < 72) return `setpc ${cpu} ${longAt(row, 1)}`;
  return code === CLOCK ? 'tick' : `${LOUD_EVENTS[code]} ${longAt(row, 1)}${code === POKE ? ` ${run.pokes.get(k)}` : ''}`;
}
function placeWords(run, number) {
  if (number === 0) return '';
  if (number === 1) return 'an address below RAM';
  const address = RAM + number - 2, symbol = run.symbolAt(address), line = run.lineAt(address);
  return `${hexadecimal(address)}${line && `, ${line}`}${symbol ? ` (${symbol.name}${symbol.offset ? `+0x${symbol.offset.toString(16)}` : ''})` : ''}`;
}
function answerWords(outcome) {
  const n = outcome - 2;
  if (n % 2 === 0) return `${n / 2}`;
  const errno = (n + 1) / 2;
  return `-${errno}${ERRNOS[errno] ? ` ${ERRNOS[errno]}` : ''}`;
}
// What each part of an entry says, in words.
function partWords(run, part, row, i) {
  const task = (n) => run.taskName(n);
  if (part >= ONCE) {
    const { passage, cpu, line, times: n } = lineOf(part, row, i);
    return `line ${line} is ${PASSAGES[passage]}${passage > 1 ? ` ${STAGES[passage - 2]}` : ''} ${passage === 1 ? 'by' : 'on'} processor ${cpu}${times(n)}`;
  }
  switch (part) {
    case 100: return `processor ${row[i]} runs ${task(row[i + 1])} ${STAGES[row[i + 2]]}`;
    case 101: return `processor ${row[i]} runs no task`;
    case 102: return row[i + 1] ? `processor ${row[i]} is stopped` : `processor ${row[i]} goes on`;
    case 103: return `the ${STAGES[row[i + 1]]} stage of processor ${row[i]} is stalled${row[i + 2] ? '' : ' no more'}`;
    case 110: return `${task(row[i])} is created`;
    case 111: return `${task(row[i])} waits for ${run.waitName(row[i + 1], row[i + 2])}${row[i + 1] === RETAKE ? ', which it takes back' : ''}`;
    case 112: return `${task(row[i])} waits no more for ${run.waitName(row[i + 1], row[i + 2])}`;
    case 113: return `${task(row[i])} waits no more: its deadline was tick ${row[i + 1]}`;
    case 114: return row[i + 1] ? `${task(row[i])} is demoted: it goes in-band` : `${task(row[i])} is promoted: it goes out-of-band`;
    case 115: return `${task(row[i])} ${row[i + 1] < row[i + 2] ? 'rises' : 'falls'} from rank ${row[i + 1]} to rank ${row[i + 2]}`;
    case 116: return `${task(row[i])} ends`;
    case 117: return `${task(row[i])} ends by a fault: ${FAULTS[row[i + 1]]}`;
    case 118: return row[i + 1] && row[i + 2] ? `${run.waitName(LOCK, row[i])} passes from ${task(row[i + 1] - 1)} to ${task(row[i + 2] - 1)}` : row[i + 2] ? `${run.waitName(LOCK, row[i])} is owned by ${task(row[i + 2] - 1)}` : `${run.waitName(LOCK, row[i])} is given back by ${task(row[i + 1] - 1)}`;
    case 119: return `the clock ticks${times(row[i])}`;
    case 121: return `${task(row[i])} moves to processor ${row[i + 1]}`;
    case 120: return `${task(row[i + 1])} has a notice: ${NOTICES[row[i]]}`;
    case 200: return callWords(run, row, i);
    case 201: return `the object has ${row[i]} then`;
    case 202: return `${DEVICES[row[i]] ?? `device ${row[i]}`}: ${row[i + 2]} is put into register ${row[i + 1]}`;
    case 203: return `${DEVICES[row[i]] ?? `device ${row[i]}`}: register ${row[i + 1]} gives ${row[i + 2]}`;
    case 204: return `${task(row[i])} is of processor ${row[i + 1]}, ${STAGES[row[i + 2]]}, rank ${row[i + 3]}, ${CLASSES[row[i + 4]]}${row[i + 6] > 1 ? `; it begins at ${placeWords(run, row[i + 6])}` : ''}`;
    case 205: return `${run.waitName(TIMER, row[i])} is ${row[i + 2] ? `due at tick ${row[i + 2]}` : 'off'}${row[i + 3] ? `, each ${counted(row[i + 3], 'tick', 'ticks')}` : ''}, with ${counted(row[i + 4], 'expiry', 'expiries')}`;
    default: return '';
  }
}
function argumentWords(call, value) {
  if (call === 1) return JSON.stringify(String.fromCharCode(value & 255));
  return value >= RAM ? hexadecimal(value) : value;
}
function callWords(run, row, i) {
  const call = CALLS[row[i]], count = partLength(row, i - 1) - 2;
  const values = [];
  for (let n = 0; n < Math.min(count, call ? call[1].length : 0); n += 1) {
    const value = row[i + 2 + n], word = row[i] === 14 && n === 2 ? ACTED_ON[row[i + 3]] ?? 'object' : call[1][n];
    if (!(word === 'deadline' && !value)) values.push(word in NAMED ? run.named(word, NAMED[word], value) : `${word} ${argumentWords(row[i], value)}`);
  }
  const name = call ? `${call[0]}(${values.join(', ')})` : `call ${row[i]}`;
  return row[i + 1] === 0 ? `${name} waits` : row[i + 1] === 1 ? `${name}: the task changes its stage first` : `${name} answers ${answerWords(row[i + 1])}`;
}
function allWords(run, k) {
  const row = run.rows.get(k), words = [];
  eachPart(row, (part, i) => {
    const text = part === PLACES ? '' : partWords(run, part, row, i), caller = part === 200 ? run.callerAt(run.first[k]) : null;
    if (text) words.push(caller === null ? text : `${run.taskName(caller)}: ${text}`);
  });
  return words;
}
// The line of the script that repeats the run up to an event and with it, and how many lines stand before it.
function scriptLine(run, event) {
  const k = run.at(event), { codes } = run.rows, cpuOf = (j) => (codes[j] < 16 ? codes[j] & 7 : -1);
  let before = 0, begins = 1;
  for (let j = 2; j <= k; j += 1) if (cpuOf(j) < 0 || cpuOf(j) !== cpuOf(j - 1)) { before += 1; begins = j; }
  return { before, line: codes[k] < 16 ? `step ${cpuOf(k)} ${event - run.first[begins] + 1}` : eventLine(run, k) };
}
// Scripts boot the newest profile: of a run of another one it is the journal that repeats it.
function script(run, event) {
  const boot = `boot ${run.cpus} ${run.ram} ${run.capacity}`, lines = run.profile < NEWEST ? [`evl-journal ${run.profile}`, boot] : [run.watchdog ? `${boot} ${run.watchdog}` : boot];
  const k = run.at(event);
  let last = null, n = 0;
  const flush = () => { if (last !== null) lines.push(`step ${last} ${n}`); last = null; };
  for (let j = 1; j <= k; j += 1) {
    const code = run.rows.codes[j], count = j === k ? event - run.first[j] + 1 : run.first[j + 1] - run.first[j];
    if (code < 16) { if (last === (code & 7)) n += count; else { flush(); last = code & 7; n = count; } } else { flush(); lines.push(eventLine(run, j)); }
  }
  flush();
  return `${lines.join('\n')}\n`;
}

// ---- 7 causes and effects of an event: links to other events
function linksOf(run, k) {
  const row = run.rows.get(k), event = run.first[k], links = [];
  const cause = (at, words) => { if (at !== null && at !== event) links.push({ event: at, words, cause: true }); };
  const effect = (at, words) => { if (at !== null && at !== event) links.push({ event: at, words, cause: false }); };
  const get = (kind, number) => run.marks[kind]?.[number];
  eachPart(row, (part, i) => {
    if (part >= ONCE) {
      const { passage, cpu, line } = lineOf(part, row, i), lane = run.lineLane(cpu, line);
      if (passage === 0) {
        effect(markFrom(lane, event + 1, RECEIVED), `line ${line} is received by processor ${cpu}`);
        if (from(lane.merged, event) === event) cause(markBefore(lane, event, RAISED), `line ${line} was on the wire already: the raises merge`);
      }
      if (passage === 1) {
        cause(markBefore(lane, event + 1, RAISED), `line ${line} is raised`);
        if (markFrom(lane, event, ['merges']) === event) cause(markBefore(lane, event, RECEIVED), `line ${line} is in the log already`);
        effect(markFrom(lane, event + 1, PLAYED), `line ${line} is played`);
      }
      if (passage > 1) cause(markBefore(lane, event + 1, RECEIVED), `line ${line} is received`);
      return;
    }
    const task = row[i], name = run.taskName(task);
    if (part === 111) {
      const kind = row[i + 1], number = row[i + 2], key = (kind === RETAKE ? LOCK : kind) * 256 + number;
      effect(from(get('woken', task), event + 1), `the wait of ${name} ends`);
      if (kind === LOCK || kind === RETAKE) cause(before(get('owner', number), event), `${run.waitName(LOCK, number)} got its owner`);
      const took = before(get('takes', key), event);
      if (took !== null) cause(took, `the last that took ${run.waitName(kind, number)}, by ${run.taskName(run.callerAt(took))}`);
      cause(before(get('hollow', key), event), 'the last that woke nobody: it came before this wait');
    }
    if (part === 112) {
      cause(before(get('waits', task), event), `${name} begins to wait`);
      effect(from(get('runs', task), event), `${name} runs`);
    }
    if (part === 100) {
      const woken = before(get('woken', row[i + 1]), event + 1);
      cause(woken, `${run.taskName(row[i + 1])} was woken`);
    }
    if (part === 118 && row[i + 2]) cause(before(get('waits', row[i + 2] - 1), event), `${run.taskName(row[i + 2] - 1)} begins to wait`);
    if (part === 118 && row[i + 2]) effect(from(get('owner', task), event + 1), `${run.waitName(LOCK, task)} gets another owner, or none`);
    if (part === 205) {
      const is = (what) => from(get(what, task), event) === event, timer = run.waitName(TIMER, task);
      if (is('set')) effect(from(get('expired', task), event + 1), `${timer} expires`);
      if (is('expired')) {
        cause(before(get('expired', task), event) ?? before(get('set', task), event), `${timer} was set, or expired last`);
        effect(from(get('taken', task), event + 1), `what ${timer} has expired is asked for`);
      }
      if (is('taken')) cause(before(get('expired', task), event), `${timer} expired`);
    }
    if (part === 119) effect(markFrom(run.lineLane(0, 0), event, RECEIVED), 'the tick is received by processor 0');
    if (part === 200) {
      const wait = CALLS[row[i]]?.[2], key = wait * 256 + row[i + 2];
      if (wait && from(get('hollow', key), event) === event) {
        effect(from(get('waits-for', key), event), `the next that waits for ${run.waitName(wait, row[i + 2])}`);
        effect(from(get('puts', key), event + 1), 'the next that woke a task');
      }
    }
  });
  const seen = new Set();
  links.sort((one, two) => Math.abs(one.event - event) - Math.abs(two.event - event));
  return links.filter((link) => { const key = `${link.event} ${link.words}`; const first = !seen.has(key); seen.add(key); return first; });
}
// What is said of a mark that is no word of an entry: hollow, merged, lost.
function warningsOf(run, k) {
  const event = run.first[k], words = [];
  for (const lane of run.lanes) {
    for (let at = below(lane.marks.at, event); at < lane.marks.at.length && lane.marks.at[at] === event; at += 1) {
      const what = lane.marks.what[at];
      if (what === 'hollow') words.push(`It woke nobody: no task waited for ${run.waitName(lane.wait, lane.number)}.`);
      if (what === 'merged') words.push(`${lane.name} was on the wire already: the two raises merge into one.`);
      if (what === 'merges') words.push(`${lane.name} was in the log already: what was received before and this merge into one play.`);
      if (what === 'lost' && lane.kind === 'line') words.push(`No task waited for line ${lane.line}: it is lost.`);
      if (what === 'overrun') words.push(`${run.waitName(TIMER, lane.number)} expired before its last expiry was asked for: an overrun.`);
    }
  }
  return words;
}

// ---- 8 search
function matches(run, k, wanted) {
  const words = run.rows.codes[k] < 8 ? [eventWords(run, k)] : [eventWords(run, k), ...allWords(run, k)];
  if (from(run.warned, run.first[k]) === run.first[k]) words.push(...warningsOf(run, k));
  return words.join('\n').toLowerCase().includes(wanted);
}

// ---- 9 the page
const $ = (id) => document.getElementById(id);
class Page {
  constructor(runs) {
    this.runs = runs;
    this.chart = new Chart(runs, 'events');
    this.chosen = { run: runs[0], lane: runs[0].lanes[0], event: null, count: 1, links: [] };
    this.canvas = $('canvas');
    this.map = $('map');
    this.found = '';
    const { from: first, to: last } = runs[0].about;
    if (first > 0 || last < runs[0].count) this.window(first, Math.min(last, runs[0].count));
    const shown = ({ about }) => about.journal.split('/').pop();
    $('title').textContent = `${shown(runs[0])}${runs[1] ? ` beside ${shown(runs[1])}` : ''} `;
    const small = document.createElement('small');
    small.textContent = `${runs[0].about.image.split('/').pop()}: ${runs.map((run) => `${run.count.toLocaleString('en')} events`).join(', ')}, ${runs[0].cpus} processor${runs[0].cpus > 1 ? 's' : ''}`;
    $('title').append(small);
    document.title = $('title').textContent;
    this.listLanes();
    this.listen();
    this.resize();
    this.showSigns();
  }
  get colours() {
    if (!this.cached) {
      const style = getComputedStyle(document.documentElement);
      this.cached = Object.fromEntries(COLOURS.map((name) => [name, style.getPropertyValue(`--${name}`).trim()]));
    }
    return this.cached;
  }
  listLanes() {
    this.listed = this.chart.lanes.filter((lane) => !lane.heading);
    $('lanes').replaceChildren(...this.listed.map((lane, i) => {
      const item = document.createElement('li');
      item.id = `lane${i}`;
      item.setAttribute('role', 'option');
      item.textContent = `${lane.name}${this.runs.length > 1 ? ` of ${lane.run.about.journal}` : ''}: ${lane.bars.from.length} states, ${lane.marks.at.length} marks`;
      return item;
    }));
  }
  resize() {
    const box = $('chart');
    this.width = Math.max(320, box.clientWidth);
    this.height = Math.max(80, box.clientHeight);
    const ratio = window.devicePixelRatio || 1;
    this.canvas.width = this.width * ratio; this.canvas.height = this.height * ratio;
    this.canvas.style.width = `${this.width}px`; this.canvas.style.height = `${this.height}px`;
    $('space').style.height = `${RULER + this.chart.lanes.length * LANE + 8}px`;
    this.map.width = this.map.clientWidth * ratio; this.map.height = this.map.clientHeight * ratio;
    this.context = this.canvas.getContext('2d');
    this.pen = new CanvasPen(this.context);
    this.paintMap = true;
    this.paint();
  }
  // One frame, when the browser wants one.
  paint() {
    if (this.waiting) return;
    this.waiting = true;
    requestAnimationFrame(() => {
      this.waiting = false;
      const begun = performance.now(), ratio = window.devicePixelRatio || 1;
      this.context.setTransform(ratio, 0, 0, ratio, 0, 0);
      this.chart.draw(this.pen, this.width, this.height, $('chart').scrollTop, this.chosen, this.colours);
      this.drawMap();
      this.frame = performance.now() - begun;
    });
  }
  // The whole run, as how much happens where, and the window in it.
  drawMap() {
    const context = this.map.getContext('2d'), ratio = window.devicePixelRatio || 1, w = this.map.width / ratio, h = this.map.height / ratio;
    context.setTransform(ratio, 0, 0, ratio, 0, 0);
    if (this.paintMap) this.whole = this.wholeMap(w, h, ratio);
    this.paintMap = false;
    context.drawImage(this.whole, 0, 0, w, h);
    const left = (this.chart.from / this.chart.end) * w, right = (this.chart.to / this.chart.end) * w;
    context.strokeStyle = this.colours.mark; context.lineWidth = 2;
    context.strokeRect(left + 1, 1, Math.max(3, right - left - 2), h - 2);
  }
  // The map without the window, as a picture.
  wholeMap(w, h, ratio) {
    const picture = this.map.cloneNode(), context = picture.getContext('2d'), axis = this.chart.axes[0], counts = new Float64Array(Math.ceil(w)), alarms = counts.slice();
    context.setTransform(ratio, 0, 0, ratio, 0, 0);
    context.fillStyle = this.colours.paper; context.fillRect(0, 0, w, h);
    const ends = counts.map((_, p) => (p + 1 < counts.length ? axis.event(((p + 1) / w) * this.chart.end) : Infinity));
    const count = (list, sums) => ends.reduce((i, end, p) => { const next = seek(list, end, i); sums[p] += next - i; return next; }, 0);
    for (const lane of this.runs[0].lanes) { count(lane.marks.at, counts); count(lane.alarms, alarms); }
    const most = Math.max(1, ...counts);
    counts.forEach((n, p) => {
      if (!n) return;
      const tall = 3 + (Math.log(n + 1) / Math.log(most + 1)) * (h - 8);
      context.fillStyle = alarms[p] ? this.colours.alarm : this.colours.dim;
      context.fillRect(p, h - tall, 1, tall);
    });
    return picture;
  }
  // The window of the axis that is shown: one event of it at least.
  window(first, last) {
    const least = Math.min(this.chart.end, this.chart.oneAt((first + last) / 2)), span = Math.max(least, Math.min(this.chart.end * 1.02, last - first));
    const begin = Math.max(-span * 0.02, Math.min(first, this.chart.end * 1.02 - span));
    this.chart.from = begin; this.chart.to = begin + span;
    this.paint?.call(this.context ? this : { waiting: true });
  }
  zoom(factor, x) {
    const { from: first, to: last } = this.chart, at = first + ((Math.max(GUTTER, x ?? (this.width + GUTTER) / 2) - GUTTER) / (this.width - GUTTER)) * (last - first);
    this.window(at - (at - first) * factor, at + (last - at) * factor);
  }
  pan(part) { const span = this.chart.to - this.chart.from; this.window(this.chart.from + span * part, this.chart.to + span * part); }
  setAxis(kind) {
    const axis = this.chart.axes[0], events = [axis.event(this.chart.from), axis.event(this.chart.to)], whole = this.chart.to - this.chart.from >= this.chart.end * 0.98;
    this.chart.setAxis(kind);
    $('axis').value = kind;
    if (whole) this.window(0, this.chart.end); else this.window(...events.map((event) => this.chart.axes[0].position(event)));
    this.paintMap = true;
    this.paint();
  }
  // Chooses an event of a run; the window moves to it, if it is not seen.
  choose(run, event, lane) {
    if (!run.count) return;
    const at = Math.max(0, Math.min(run.count - 1, Math.floor(event))), k = run.at(at);
    this.chosen = { run, lane: lane ?? this.chosen.lane, event: run.first[k], count: run.first[k + 1] - run.first[k], k, links: linksOf(run, k), asked: at };
    if (this.chosen.lane.run !== run) this.chosen.lane = run.lanes[0];
    const position = this.chart.axes[run.number].position(run.first[k]), span = this.chart.to - this.chart.from;
    if (position < this.chart.from || position >= this.chart.to) {
      const middle = position + Math.min(span, this.chart.oneAt(position)) / 2;
      this.window(middle - span / 2, middle + span / 2);
    }
    this.tell();
    this.showLane();
    this.paint();
  }
  showLane() {
    const i = this.listed.indexOf(this.chosen.lane), row = this.chart.lanes.indexOf(this.chosen.lane), box = $('chart'), y = row * LANE;
    this.canvas.setAttribute('aria-activedescendant', `lane${i}`);
    for (const item of $('lanes').children) item.removeAttribute('aria-selected');
    $(`lane${i}`)?.setAttribute('aria-selected', 'true');
    if (y < box.scrollTop) box.scrollTop = y; else if (y + LANE + RULER > box.scrollTop + box.clientHeight) box.scrollTop = y + LANE + RULER - box.clientHeight;
  }
  // What the chosen event is, in words.
  tell() {
    const { run, k, event, count, links, asked } = this.chosen, told = $('told'), parts = [];
    const element = (name, text, kind) => { const it = document.createElement(name); it.textContent = text; if (kind) it.className = kind; return it; };
    const name = count > 1 ? `events ${event} to ${event + count - 1}` : `event ${event}`;
    parts.push(element('h2', `${name}: ${eventWords(run, k)}${this.runs.length > 1 ? ` (${run.about.journal})` : ''}`));
    for (const text of warningsOf(run, k)) parts.push(element('p', text, 'hollow'));
    const words = allWords(run, k);
    if (words.length) { const list = element('ul', ''); for (const text of words) list.append(element('li', text)); parts.push(list); }
    for (const isCause of [true, false]) {
      const some = links.filter((link) => link.cause === isCause);
      if (!some.length) continue;
      const line = element('p', isCause ? 'Because of ' : 'Leads to ');
      for (const link of some) { const go = element('button', `event ${link.event}: ${link.words}`); go.onclick = () => { this.choose(run, link.event); this.canvas.focus(); }; line.append(go); }
      parts.push(line);
    }
    const state = element('dl', '');
    const add = (term, text) => state.append(element('dt', term), element('dd', text));
    add('tasks then', this.statesAt(run, event + count));
    add('clock', `tick ${below(run.ticks, event + 0.5)}, Step ${Math.floor(new Axis(run, 'steps').position(event)).toLocaleString('en')}`);
    const repeated = scriptLine(run, count > 1 ? asked : event);
    add('script', `${repeated.line}`);
    parts.push(state);
    const copy = element('button', `Copy the ${run.profile < NEWEST ? 'journal' : 'script'} that repeats the run up to here`);
    copy.onclick = () => this.copy(script(run, count > 1 ? asked : event));
    parts.push(element('p', `${repeated.before ? `The boot line, ${repeated.before} line${repeated.before > 1 ? 's' : ''} of the journal behind it, and then: ${repeated.line}. ` : ''}`));
    parts[parts.length - 1].append(copy);
    told.replaceChildren(...parts);
  }
  async copy(text) {
    this.copied = text;
    try { await navigator.clipboard.writeText(text); } catch { const area = document.createElement('textarea'); area.value = text; document.body.append(area); area.select(); document.execCommand('copy'); area.remove(); }
  }
  // What each task does behind an event.
  statesAt(run, event) {
    const words = [];
    for (const lane of run.lanes) {
      if (lane.kind !== 'task') continue;
      const i = below(lane.bars.to, event + 0.5), isEnd = event >= run.count;
      const bar = isEnd ? lane.last : i < lane.bars.from.length && lane.bars.from[i] <= event ? { from: lane.bars.from[i], what: lane.bars.what[i], note: lane.bars.note[i] } : null;
      if (bar) words.push(`${lane.name}: ${barLook(lane, bar.what, bar.note, this.colours).text}${bar.what === 'waits' ? ` since event ${bar.from - 1}` : ''}`);
    }
    return words.slice(0, 12).join('; ') + (words.length > 12 ? `; and ${words.length - 12} more` : '');
  }
  // The next or the previous event of the chosen lane: where a bar or a mark begins.
  stepLane(forward) {
    const { lane, run, event, count } = this.chosen;
    const lists = [lane.marks.at, lane.bars.from], now = event === null ? -1 : event;
    // a bar begins behind the event that led to it
    const places = forward ? [from(lane.marks.at, event === null ? 0 : event + count), less1(from(lane.bars.from, (event === null ? 0 : event + count) + 1))] : [before(lane.marks.at, now), less1(before(lane.bars.from, now + 1))];
    const left = places.filter((at) => at !== null && at >= 0 && lists);
    if (left.length) this.choose(run, forward ? Math.min(...left) : Math.max(...left), lane);
  }
  stepEvent(forward) {
    const { run, event, count } = this.chosen;
    this.choose(run, event === null ? 0 : forward ? event + count : event - 1);
  }
  moveLane(by) {
    const i = this.listed.indexOf(this.chosen.lane), lane = this.listed[Math.max(0, Math.min(this.listed.length - 1, i + by))];
    if (lane.run !== this.chosen.run) this.chosen = { run: lane.run, lane, event: null, count: 1, links: [] };
    this.chosen.lane = lane;
    this.showLane();
    this.paint();
  }
  follow(isCause) { const link = this.chosen.links.find((one) => one.cause === isCause); if (link) this.choose(this.chosen.run, link.event); }
  // Looks for words from the chosen event on, a slice at a time so that the page stays alive.
  search(forward) {
    const wanted = $('query').value.trim().toLowerCase(), { run } = this.chosen;
    if (!wanted || !run.count) return;
    if (/^\d+$/.test(wanted)) { this.choose(run, Number(wanted)); return; }
    const last = run.rows.length - 1;
    let k = this.chosen.event === null ? (forward ? 0 : last + 1) : this.chosen.k, left = last;
    this.looking = (this.looking ?? 0) + 1;
    const mine = this.looking;
    const look = () => {
      const begun = performance.now();
      while (left > 0 && performance.now() - begun < 30) {
        for (let n = 0; n < 500 && left > 0; n += 1) {
          k += forward ? 1 : -1; left -= 1;
          if (k > last) k = 1; else if (k < 1) k = last;
          if (matches(run, k, wanted)) { this.choose(run, run.first[k]); this.found = wanted; return; }
        }
      }
      if (mine !== this.looking) return;
      if (left > 0) setTimeout(look); else $('told').replaceChildren(`Nothing is found for ${wanted}.`);
    };
    look();
  }
  // The window as SVG: all lanes, as wide as the chart.
  svg() { return this.drawn(this.colours); }
  drawn(colours) {
    const pen = new SvgPen(), width = Math.max(this.width, 900), height = RULER + this.chart.lanes.length * LANE + 14;
    this.chart.draw(pen, width, height, 0, this.chosen, colours);
    return pen.document(width, height);
  }
  save() {
    const link = document.createElement('a');
    link.href = URL.createObjectURL(new Blob([this.svg()], { type: 'image/svg+xml' }));
    link.download = 'window.svg';
    link.click();
    setTimeout(() => URL.revokeObjectURL(link.href), 1000);
  }
  showSigns() {
    const pen = new SvgPen(), colours = this.colours;
    SIGNS.forEach((name, i) => { const x = 12 + (i % 3) * 310, y = 12 + Math.floor(i / 3) * 20; sign(pen, name, x, y, colours); pen.text(x + 12, y + 4, SIGN_WORDS[name], colours.ink); });
    $('signs').innerHTML = pen.document(980, 24 + Math.floor((SIGNS.length - 1) / 3) * 20);
  }
  listen() {
    const { canvas } = this, pointers = new Map();
    let pinch = null, moved = 0, start = null;
    const place = (e) => { const box = canvas.getBoundingClientRect(); return { x: e.clientX - box.left, y: e.clientY - box.top }; };
    canvas.addEventListener('pointerdown', (e) => { canvas.setPointerCapture(e.pointerId); pointers.set(e.pointerId, place(e)); moved = 0; start = place(e); pinch = null; canvas.focus({ preventScroll: true }); });
    canvas.addEventListener('pointermove', (e) => {
      if (!pointers.has(e.pointerId)) return;
      const was = pointers.get(e.pointerId), now = place(e);
      pointers.set(e.pointerId, now);
      if (pointers.size === 2) {
        const [one, two] = [...pointers.values()], apart = Math.max(20, Math.hypot(one.x - two.x, one.y - two.y));
        if (pinch) this.zoom(pinch / apart, (one.x + two.x) / 2);
        pinch = apart; moved = 99;
        return;
      }
      moved = Math.max(moved, Math.hypot(now.x - start.x, now.y - start.y));
      if (moved > 4) { this.pan((was.x - now.x) / (this.width - GUTTER)); $('chart').scrollTop += was.y - now.y; }
    });
    const up = (e) => { if (!pointers.delete(e.pointerId)) return; pinch = null; if (e.type === 'pointerup' && moved <= 4) this.click(place(e)); };
    canvas.addEventListener('pointerup', up);
    canvas.addEventListener('pointercancel', up);
    canvas.addEventListener('wheel', (e) => {
      const at = place(e);
      if (at.x < GUTTER && !e.ctrlKey) return;
      e.preventDefault();
      const scale = e.deltaMode === 1 ? 16 : 1;
      if (e.shiftKey || Math.abs(e.deltaX) > Math.abs(e.deltaY)) this.pan(((e.deltaX || e.deltaY) * scale) / (this.width - GUTTER)); else this.zoom(1.0016 ** (e.deltaY * scale), at.x);
    }, { passive: false });
    $('chart').addEventListener('scroll', () => this.paint());
    const drag = (e) => { const box = this.map.getBoundingClientRect(), at = ((e.clientX - box.left) / box.width) * this.chart.end, span = this.chart.to - this.chart.from; this.window(at - span / 2, at + span / 2); };
    this.map.addEventListener('pointerdown', (e) => { this.map.setPointerCapture(e.pointerId); drag(e); });
    this.map.addEventListener('pointermove', (e) => { if (e.buttons) drag(e); });
    document.addEventListener('keydown', (e) => { if (!(e.ctrlKey || e.metaKey || e.altKey)) this.key(e); });
    $('search').addEventListener('submit', (e) => { e.preventDefault(); this.search(true); });
    $('next').onclick = () => this.search(true);
    $('previous').onclick = () => this.search(false);
    $('in').onclick = () => this.zoom(0.5);
    $('out').onclick = () => this.zoom(2);
    $('all').onclick = () => this.window(0, this.chart.end);
    $('axis').onchange = (e) => this.setAxis(e.target.value);
    $('save').onclick = () => this.save();
    $('help').onclick = () => this.help();
    window.addEventListener('resize', () => this.resize());
    window.matchMedia('(prefers-color-scheme: dark)').addEventListener('change', () => { this.cached = null; this.paintMap = true; this.showSigns(); this.paint(); });
    window.addEventListener('beforeprint', () => { $('print').innerHTML = this.drawn(Object.fromEntries(COLOURS.map((name) => [name, `var(--${name})`]))); });
    window.addEventListener('afterprint', () => $('print').replaceChildren());
  }
  help() { const keys = $('keys'); keys.hidden = !keys.hidden; $('help').setAttribute('aria-expanded', String(!keys.hidden)); this.resize(); }
  click({ x, y }) {
    const lane = this.chart.lanes[Math.floor((y - RULER + $('chart').scrollTop) / LANE)];
    if (!lane || lane.heading || y < RULER) return;
    if (x < GUTTER) { this.chosen = lane.run === this.chosen.run ? { ...this.chosen, lane } : { run: lane.run, lane, event: null, count: 1, links: [] }; this.showLane(); this.paint(); return; }
    const event = this.chart.eventAt(lane.run, x, this.width), reach = Math.abs(this.chart.eventAt(lane.run, x + 8, this.width) - event);
    // the nearest sign, or the event that led to the bar, or the event itself
    const near = [before(lane.marks.at, event), from(lane.marks.at, event)].filter((at) => at !== null && Math.abs(at + 0.5 - event) <= Math.max(0.5, reach));
    near.sort((one, two) => Math.abs(one + 0.5 - event) - Math.abs(two + 0.5 - event));
    if (near.length) { this.choose(lane.run, near[0], lane); return; }
    const bar = below(lane.bars.from, event + 1e-9) - 1;
    const isBar = bar >= 0 && event < lane.bars.to[bar] && (lane.kind !== 'stage');
    this.choose(lane.run, isBar ? Math.max(0, lane.bars.from[bar] - 1) : event, lane);
  }
  key(e) {
    const typing = e.target instanceof HTMLInputElement || e.target instanceof HTMLSelectElement;
    if (typing) { if (e.key === 'Escape') this.canvas.focus(); return; }
    if (e.target instanceof HTMLButtonElement && (e.key === 'Enter' || e.key === ' ')) return;
    const other = this.runs.find((run) => run !== this.chosen.run), { event, run } = this.chosen;
    const keys = {
      ArrowLeft: () => this.pan(-0.15), ArrowRight: () => this.pan(0.15), ArrowUp: () => this.moveLane(-1), ArrowDown: () => this.moveLane(1),
      '+': () => this.zoom(0.7), '=': () => this.zoom(0.7), '-': () => this.zoom(1.4), 0: () => this.window(0, this.chart.end),
      Home: () => this.choose(run, 0), End: () => this.choose(run, run.count - 1), '.': () => this.stepLane(true), ',': () => this.stepLane(false),
      ']': () => this.stepEvent(true), '[': () => this.stepEvent(false), e: () => this.follow(false), c: () => this.follow(true),
      '/': () => $('query').focus(), n: () => this.search(true), N: () => this.search(false), s: () => this.save(), '?': () => this.help(),
      a: () => this.setAxis({ events: 'steps', steps: 'ticks', ticks: 'events' }[this.chart.kind]),
      o: () => other && this.choose(other, event ?? 0, other.byKey.get(this.chosen.lane.key)),
      d: () => run.about.parts !== undefined && this.choose(run, run.about.parts),
      Enter: () => event !== null && this.window(this.chart.axes[run.number].position(event) - 15, this.chart.axes[run.number].position(event) + 15),
    };
    if (keys[e.key]) { e.preventDefault(); keys[e.key](); }
  }
}
const less1 = (at) => (at === null ? null : at - 1);

const headers = [...document.querySelectorAll('script.about')].map((it) => JSON.parse(it.textContent));
const runs = [...document.querySelectorAll('script.run')].map((it, i) => { const rows = new Rows(it.textContent); it.remove(); return new Run(headers[i], rows, i); });
window.page = new Page(runs);
