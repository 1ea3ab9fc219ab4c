#!/usr/bin/env node
/* A client of Justmeadow that needs node's standard library alone.

    const { Client } = require('./client.js');
    const client = await Client.connect(7000, { patience: 30 });
    await client.subscribe('cheap', 'price <= 250');
    console.log((await client.publish('price=240')).names);      // [ 'cheap' ]
    await client.quit();

Each call returns a promise and sends its line at once, so calls that aren't awaited one by one are pipelined.

As a program it makes each line of standard input a call (CALLS lists them), and prints what the call returned as JSON:

    examples/client-node/client.js PORT [PATIENCE [HOST]] */
'use strict';
const { once } = require('node:events');
const net = require('node:net');
const readline = require('node:readline');
const { setTimeout: sleep } = require('node:timers/promises');

// the first word of a reply's last line: how many numbers follow it, and how many names; null is as many as the last number
const SHAPES = new Map([
  ...['BAD', 'LONG', 'NOMEM', 'SHUT'].map((kind) => [kind, [0, 0]]),
  ...['ATTR', 'DOM', 'TWICE'].map((kind) => [kind, [0, 1]]),
  ...['OK', 'HELD', 'BYE', 'NONE', 'MANY', 'END'].map((kind) => [kind, [1, 0]]),
  ...['DUP', 'OTHER', 'SPLIT', '# DUMP', 'TAILED'].map((kind) => [kind, [2, 0]]),
  ...['COST', 'SENT'].map((kind) => [kind, [3, 0]]),
  ...['HIT', 'LIST'].map((kind) => [kind, [2, null]]),
]);
// the lines before it: their first word, and how many fields each has
const ROWS = new Map([['END', ['NOTE', 4]], ['# DUMP', ['ROW', 3]], ['TAILED', ['AT', 3]]]);
const REFUSALS = new Set(['BAD', 'LONG', 'NOMEM', 'SHUT', 'ATTR', 'DOM', 'TWICE', 'MANY', 'DUP', 'NONE', 'OTHER', 'SPLIT']);
const ACCEPTED = ['OK', 'HELD'];
const BEFORE_THE_LAST = /^(NOTE|ROW|AT) /;
const NUMBER = /^[0-9]+$/;
const NAME = /^[A-Za-z0-9_.-]+$/;
const WAITS = /^[ \t]*(?:FETCH|TAIL[ \t]+\d+)[ \t]+\d+[ \t]+(\d{1,8})[ \t]*\r?$/;
const FIRST_PAUSE = 50; // milliseconds between two attempts
const LONGEST_PAUSE = 1000;

/** A reply that says that the line wasn't done: its words, as ['DUP', '1', '0'], the first of which is its kind. */
class Refused extends Error {
  words = this.message.split(' ');
  kind = this.words[0];
}

/** The session has ended. */
class Ended extends Error {}

/** The connection was lost and with it the reply, or there is none to be had. The next call tries again. */
class Lost extends Error {}

/** A reply that the protocol doesn't have. Nothing that follows it can be trusted. */
class Unreadable extends Error {}

/** The fields of a line, of which the last is the rest of the line. */
function fields(line, count) {
  const words = line.split(' ');
  return words.length > count ? [...words.slice(0, count - 1), words.slice(count - 1).join(' ')] : words;
}

/** What a reply says. `rows` are the fields of the lines before the last. */
function parse(text) {
  const before = text.split('\n');
  const last = before.pop();
  const kind = last.startsWith('# DUMP ') ? '# DUMP' : last.split(' ', 1)[0];
  const words = last.length > kind.length ? last.slice(kind.length + 1).split(' ') : [];
  const [count, named] = SHAPES.get(kind) ?? [words.length + 1, 0];
  const numbers = words.slice(0, count).filter((word) => NUMBER.test(word)).map(Number);
  const names = words.slice(count);
  const [first, size] = ROWS.get(kind) ?? [];
  const rows = before.map((line) => fields(line, size));
  const isLastRight = numbers.length === count && names.length === (named ?? numbers.at(-1)) && names.every((name) => NAME.test(name));
  const isRestRight = rows.length === (first ? numbers.at(-1) : 0) && rows.every((row) => row[0] === first && row.length === size);
  if (!isLastRight || !isRestRight) throw new Unreadable(`no reply: ${text.slice(0, 200)}`);
  return { kind, numbers, names, rows: rows.map((row) => row.slice(1)), text };
}

/** The reply, where it is of a wanted kind. */
function understood(line, reply, wanted) {
  if (wanted.includes(reply.kind)) return reply;
  if (REFUSALS.has(reply.kind)) throw new Refused(reply.text);
  throw new Unreadable(`${reply.text.slice(0, 200)} answers ${line.slice(0, 200)}`);
}

/** How many milliseconds the server may wait before it answers this line. */
const waitOf = (line) => Number(WAITS.exec(line)?.[1] ?? 0);

/** The words of a line, where those that aren't given are left out. */
const lineOf = (...words) => words.filter((word) => word !== undefined).join(' ');

function oneName(name) {
  if (!NAME.test(name)) throw new TypeError(`${name} is no name: it would be read as something else`);
  return name;
}

/** Turns at something until that time, each after a longer pause than the one before. */
async function* turns(until) {
  let pause = FIRST_PAUSE;
  yield;
  while (Date.now() + pause < until) {
    await sleep(pause);
    pause = Math.min(2 * pause, LONGEST_PAUSE);
    yield;
  }
}

/** One connection: lines out, replies in, in the same order. It is lost where it is silent for so many milliseconds while a reply
 * is awaited, and for longer where the line may wait, or while it isn't open. */
class Connection {
  #awaited = []; // the calls without a reply, the oldest first
  #parts = []; // of a line whose LF hasn't come
  #lines = []; // of a reply whose last line hasn't come
  isOpen = true;

  constructor(port, host, silence) {
    this.socket = net.connect(port, host).setNoDelay(true).setEncoding('latin1').setTimeout(silence);
    this.socket.on('data', (text) => this.#take(text));
    this.socket.on('error', (error) => this.#fail(error.message));
    this.socket.on('close', () => this.#fail('the connection was closed'));
    this.socket.on('timeout', () => {
      if (this.socket.connecting || this.socket.writableEnded || this.#awaited.length > 0) this.socket.destroy(new Error('the server is silent'));
    });
    this.opened = once(this.socket, 'connect');
    this.silence = silence;
  }

  /** The server may be silent for as long as the oldest line may wait. */
  allow() {
    this.socket.setTimeout(this.silence + (this.#awaited[0]?.wait ?? 0));
  }

  /** Sends one line. What it returns is settled by the reply. */
  ask(line) {
    return new Promise((resolve, reject) => {
      if (!this.isOpen) return reject(new Lost('the connection is closed'));
      this.#awaited.push({ resolve, reject, wait: waitOf(line) });
      this.allow();
      this.socket.write(line + '\n', 'utf8');
    });
  }

  #fail(why) {
    this.isOpen = false;
    for (const { reject } of this.#awaited.splice(0)) reject(new Lost(why));
  }

  #take(text) {
    const pieces = text.split('\n');
    for (const piece of pieces.slice(0, -1)) {
      this.#line(this.#parts.concat(piece).join(''));
      this.#parts = [];
    }
    this.#parts.push(pieces.at(-1));
  }

  #line(line) {
    this.#lines.push(line);
    if (!this.isOpen || BEFORE_THE_LAST.test(line)) return;
    const text = this.#lines.splice(0).join('\n');
    const call = this.#awaited.shift();
    this.allow();
    try {
      const reply = parse(text);
      if (!call) throw new Unreadable(`nobody asked for ${text.slice(0, 200)}`);
      call.resolve(reply);
    } catch (error) {
      call?.reject(error);
      this.socket.destroy();
    }
  }
}

/** A session that outlives its connections. The next call after a loss connects again, and subscribes again what `subscriptions`
 * has, in its order. A name may still be live then, until the server sees that the old connection has ended: its `DUP` is waited
 * out. A call that may be made twice is; `send`, `fetch`, `quit` and `ask` throw Lost. Letters that weren't fetched are gone. */
class Client {
  #connection = null;
  #restoring = null;
  #hasEnded = false;

  /** It waits at most `patience` seconds for a reply, besides what the line may wait, and as long to be connected and subscribed again. */
  constructor(port, { host = '127.0.0.1', patience = 30 } = {}) {
    Object.assign(this, { port, host, patience: Math.max(1000 * patience, FIRST_PAUSE) });
    this.subscriptions = new Map(); // name to { condition, n }; an entry that is taken out isn't subscribed again
  }

  static async connect(port, options) {
    const client = new Client(port, options);
    await client.#connected();
    return client;
  }

  /** Keeps the condition under the name. Returns the number of this change. */
  async subscribe(name, condition) {
    return (await this.#told(`SUB ${oneName(name)} ${condition}`, ACCEPTED)).numbers[0];
  }

  async unsubscribe(name) {
    return (await this.#told(`UNSUB ${oneName(name)}`, ACCEPTED)).numbers[0];
  }

  /** The names of the subscriptions that the event satisfies after the first n changes, in order of acceptance. */
  async publish(event) {
    const { numbers: [n], names } = await this.#told(`PUB ${event}`, ['HIT']);
    return { n, names };
  }

  /** The names of this session's own subscriptions, in order of acceptance. */
  async list() {
    const { numbers: [n], names } = await this.#told('LIST', ['LIST']);
    return { n, names };
  }

  /** How many letters were put into boxes, and how many weren't. */
  async send(event) {
    const [n, put, dropped] = (await this.#told(`SEND ${event}`, ['SENT'], true)).numbers;
    return { n, put, dropped };
  }

  /** The next letters, at most so many. Where there is none it waits for one, at most so many milliseconds. There may be none before
   * that, as where another line is sent meanwhile. */
  async fetch(most, waitMs) {
    return (await this.#told(lineOf('FETCH', most, waitMs), ['END'], true)).rows.map(([n, name, event]) => ({ n: Number(n), name, event }));
  }

  /** Calls this with each letter, as they come, and awaits what it returns, until that is false. */
  async eachLetter(call, most = 100, waitMs = 10_000) {
    for (;;) {
      const began = Date.now();
      const letters = await this.fetch(most, waitMs);
      for (const letter of letters) if (await call(letter) === false) return;
      if (!letters.length && Date.now() - began < FIRST_PAUSE) await sleep(FIRST_PAUSE); // it was answered early
    }
  }

  /** All live subscriptions, as the text of a load file. */
  async dump() {
    return (await this.#told('DUMP', ['# DUMP'])).text + '\n';
  }

  /** The changes from a place on, at most so many, as their texts; the list has n. Where it has no more than `place` it waits until
   * it has, at most so many milliseconds. */
  async tail(place, most, waitMs) {
    const { numbers: [n], rows } = await this.#told(lineOf('TAIL', place, most, waitMs), ['TAILED']);
    return { n, changes: rows.map(([, change]) => change) };
  }

  /** Ends the session. Returns the number of its leave. */
  async quit() {
    return (await this.#told('QUIT', ['BYE', 'HELD'], true)).numbers[0];
  }

  /** Ends the session for good, without a reply. */
  close() {
    this.#hasEnded = true;
    this.#connection?.socket.end();
  }

  /** Sends one line, once, and returns its reply, refusals too. Where it throws Lost, nobody knows whether the line was done. */
  async ask(line) {
    return this.#askOnce(this.#live() ?? await this.#connected(), line);
  }

  async #askOnce(connection, line) {
    if (line.includes('\n')) throw new TypeError('a LF within the line would be a second line');
    try {
      return this.#noted(line, await connection.ask(line));
    } catch (error) {
      if (error instanceof Unreadable) this.close();
      throw this.#hasEnded && error instanceof Lost ? new Ended('the session has ended') : error;
    }
  }

  /** Keeps what an accepted line changed, and whether the session has ended. */
  #noted(line, reply) {
    const [, command, name, condition] = /^[ \t]*(SUB|UNSUB|QUIT)\b[ \t]*([A-Za-z0-9_.-]*)[ \t]*(.*?)\r?$/s.exec(line) ?? [];
    const isAccepted = ACCEPTED.includes(reply.kind);
    if (isAccepted && command === 'SUB') this.subscriptions.set(name, { condition, n: reply.numbers[0] });
    if (isAccepted && command === 'UNSUB') this.subscriptions.delete(name);
    if (['SPLIT', 'BYE'].includes(reply.kind) || (command === 'QUIT' && ['HELD', 'NOMEM'].includes(reply.kind))) this.close();
    return reply;
  }

  async #told(line, wanted, isOnce = false) {
    const reply = await (isOnce ? this.ask(line) : this.#askAgain(line));
    try {
      return understood(line, reply, wanted);
    } catch (error) {
      if (error instanceof Unreadable) this.close();
      throw error;
    }
  }

  /** Asks again after a loss. A `DUP` may then be of this very line, done just before the loss: it is waited out too. */
  async #askAgain(line) {
    const orLost = (error) => { if (error instanceof Lost) return error; throw error; };
    let result = await this.#askOnce(this.#live() ?? await this.#connected(), line).catch(orLost);
    if (!(result instanceof Lost)) return result;
    for await (const _ of turns(Date.now() + 2 * this.patience + waitOf(line))) {
      result = await this.#askOnce(await this.#connected(), line).catch(orLost);
      const isWaitedOut = result.kind === 'DUP' && !this.subscriptions.has(line.split(' ')[1]);
      if (!isWaitedOut && !(result instanceof Lost)) return result;
    }
    if (result instanceof Lost) throw result;
    return result;
  }

  #live() {
    if (this.#hasEnded) throw new Ended('the session has ended');
    return this.#connection?.isOpen ? this.#connection : null;
  }

  /** The connection; calls that need a new one at the same time wait for the same one. */
  async #connected() {
    const live = this.#live();
    if (!live) this.#restoring ??= this.#restore().finally(() => { this.#restoring = null; });
    return live ?? this.#restoring;
  }

  async #restore() {
    const until = Date.now() + this.patience;
    let fault = null;
    for await (const _ of turns(until)) {
      const connection = new Connection(this.port, this.host, Math.max(until - Date.now(), FIRST_PAUSE));
      try {
        await connection.opened;
        await this.#subscribeAgain(connection, until);
        connection.silence = this.patience;
        connection.allow();
        this.#live(); // which throws where the session was closed meanwhile
        return this.#connection = connection;
      } catch (error) {
        connection.socket.destroy();
        if ([Refused, Ended, Unreadable].includes(error.constructor)) throw error;
        fault = error;
      }
    }
    throw new Lost(`no session within ${this.patience} ms: ${fault.message}`);
  }

  /** The first name alone until it is free, since the others of the old session are free then too. */
  async #subscribeAgain(connection, until) {
    let left = [...this.subscriptions.keys()];
    let taken = new Map();
    for await (const _ of turns(until)) {
      taken = await this.#renew(connection, left.slice(0, 1));
      if (taken.size === 0) taken = await this.#renew(connection, left.slice(1));
      if (taken.size === 0) return;
      if (!taken.has(left[0])) left = [...taken.keys()];
    }
    throw new Refused(taken.values().next().value.text);
  }

  /** Subscribes these names again. Returns those that are live still, with their replies. */
  async #renew(connection, names) {
    const kept = names.filter((name) => this.subscriptions.has(name));
    const lines = kept.map((name) => `SUB ${name} ${this.subscriptions.get(name).condition}`);
    const replies = await Promise.all(lines.map((line) => connection.ask(line)));
    const taken = new Map();
    for (const [at, reply] of replies.entries()) {
      this.#noted(lines[at], reply);
      if (understood(lines[at], reply, [...ACCEPTED, 'DUP']).kind === 'DUP') taken.set(kept[at], reply);
    }
    return taken;
  }
}

// the call, and how many words it takes, of which the last is the rest of the line
const CALLS = {
  subscribe: [2, (client, name, condition) => client.subscribe(name, condition)],
  unsubscribe: [1, (client, name) => client.unsubscribe(name)],
  publish: [1, async (client, event) => Object.values(await client.publish(event))],
  list: [0, async (client) => Object.values(await client.list())],
  send: [1, async (client, event) => Object.values(await client.send(event)).slice(1)],
  fetch: [1, async (client, rest) => (await client.fetch(...fields(rest, 2))).map(({ name, event }) => [name, event])],
  letters: [1, async (client, count) => {
    const letters = [];
    await client.eachLetter(({ name, event }) => letters.push([name, event]) < Number(count), 1);
    return letters;
  }],
  tail: [2, async (client, place, rest) => Object.values(await client.tail(place, ...fields(rest, 2)))],
  dump: [0, (client) => client.dump()],
  quit: [0, (client) => client.quit()],
  lines: [1, async (client, rest) => (await Promise.all(rest.split(';').map((line) => client.ask(line)))).map((reply) => reply.text)],
  kept: [0, (client) => Object.fromEntries([...client.subscriptions].map(([name, { n }]) => [name, n]))],
};
const TAKEN = ['no words', 'the rest of the line as its word', 'a word and the rest of the line'];

async function answer(client, line) {
  const [call, ...rest] = fields(line, 2);
  try {
    if (!Object.hasOwn(CALLS, call)) throw new Error(`there is no call ${call}`);
    const [count, made] = CALLS[call];
    const words = rest.length && count ? fields(rest[0], count) : rest;
    if (words.length !== count) throw new Error(`${call} takes ${TAKEN[count]}`);
    return await made(client, ...words);
  } catch (error) {
    const kind = [Refused, Ended, Lost, Unreadable].find((it) => error.constructor === it);
    return { [kind?.name.toLowerCase() ?? 'wrong']: error.message };
  }
}

async function main(port, patience = '30', host = '127.0.0.1', ...more) {
  const [number, seconds] = [Number(port), Number(patience)];
  if (more.length || !/^\d+$/.test(port) || number < 1 || number > 65535 || !(seconds >= 0 && seconds <= 1e6)) {
    throw new Error('PORT [PATIENCE [HOST]]: a port from 1 to 65535, and for how many seconds to wait');
  }
  const client = await Client.connect(number, { host, patience: seconds });
  for await (const line of readline.createInterface({ input: process.stdin })) {
    console.log(JSON.stringify(await answer(client, line)));
  }
  client.close();
}

module.exports = { Client, Refused, Ended, Lost, Unreadable, parse };

if (require.main === module) {
  main(...process.argv.slice(2)).catch((error) => {
    console.error(`justmeadow: ${error.message}`);
    process.exitCode = 1;
  });
}
