// The wire of lab80_web: its standard input and output are the two directions of a ZMTP 3.0 stream (RFC 23), on which each
// message is an item or its answer. docs/WEB.md lists them. No part of this module needs a browser.

/** The most bytes of a frame. The program ends at a longer one, so none may be sent. */
export const MOST_BYTES = 1048576;

const MORE = 1, LONG = 2, COMMAND = 4, GREETING_BYTES = 64;
const encoder = new TextEncoder(), decoder = new TextDecoder();

export const bytesOf = text => encoder.encode(text);
export const textOf = bytes => decoder.decode(bytes);

/** A number as the items have it: eight bytes, the most significant first. */
export function numberBytes(number) {
    const bytes = new Uint8Array(8);
    new DataView(bytes.buffer).setBigUint64(0, BigInt(number));
    return bytes;
}

/** The number of eight such bytes. From 2^53 on it may be rounded. */
export const numberOf = bytes => Number(new DataView(bytes.buffer, bytes.byteOffset, 8).getBigUint64(0));

export function joined(parts) {
    const whole = new Uint8Array(parts.reduce((sum, each) => sum + each.length, 0));
    let at = 0;
    for (const each of parts) {
        whole.set(each, at);
        at += each.length;
    }
    return whole;
}

// ---- writing

function frameHead(length, flags) {
    if (length < 256) return Uint8Array.of(flags, length);
    return joined([Uint8Array.of(flags | LONG), numberBytes(length)]);
}

/** A message of frames, each bytes or a text, in the form in which it is sent. */
export function messageBytes(frames) {
    const parts = frames.map(each => typeof each === "string" ? bytesOf(each) : each);
    return joined(parts.flatMap((each, at) => [frameHead(each.length, at + 1 < parts.length ? MORE : 0), each]));
}

function greeting() {
    const bytes = new Uint8Array(GREETING_BYTES);
    bytes.set([0xFF, 0, 0, 0, 0, 0, 0, 0, 0, 0x7F, 3, 0]);
    bytes.set(bytesOf("NULL"), 12);
    return bytes;
}

function property(name, value) {
    return joined([Uint8Array.of(name.length), bytesOf(name), numberBytes(value.length).slice(4), bytesOf(value)]);
}

/** What the host sends first: the greeting, and the command READY of a DEALER. */
export function opening() {
    const ready = joined([Uint8Array.of(5), bytesOf("READY"), property("Socket-Type", "DEALER")]);
    return joined([greeting(), frameHead(ready.length, COMMAND), ready]);
}

/** Whether bytes begin as such a stream does, which no text does. */
export const isStream = bytes => bytes.length >= GREETING_BYTES && bytes[0] === 0xFF && bytes[9] === 0x7F;

// ---- items

export const joinItem = (channel, identity) => ["join", channel, identity];
export const leaveItem = connection => ["leave", numberBytes(connection)];
export const subscribeItem = (connection, moment) => ["subscribe", numberBytes(connection), "", numberBytes(moment)];
export const runItem = (moment, count) => ["run", numberBytes(moment), numberBytes(count)];

const DELIMITER = "<IDS|MSG>";

/** A Jupyter message, in the form of a server's WebSocket, for a connection. */
export function messageItem(connection, moment, {channel, header, parent_header: parent, metadata, content}) {
    const parts = [header, parent || {}, metadata || {}, content].map(each => JSON.stringify(each));
    return ["message", channel, numberBytes(connection), numberBytes(moment), DELIMITER, "", ...parts];
}

/** The connections of a post, and its header, parent header, metadata and content as texts. */
export function postOf(frames) {
    const connections = [], all = frames[1];
    for (let at = 0; at + 8 <= all.length; at += 8) connections.push(numberOf(all.subarray(at)));
    const delimiter = frames.findIndex((each, at) => at > 1 && each.length === DELIMITER.length && textOf(each) === DELIMITER);
    return {connections, parts: frames.slice(delimiter + 2, delimiter + 6).map(textOf)};
}

// ---- reading

/** Cuts a stream into messages. Bytes come in pieces of any size. */
export class Reader {
    constructor() {
        Object.assign(this, {held: new Uint8Array(0), frames: [], hasGreeted: false});
    }

    /** The messages that are whole now, each a list of frames, without commands. Fails with an Error if this is no stream. */
    read(piece) {
        let bytes = this.held.length > 0 ? joined([this.held, piece]) : piece;
        if (!this.hasGreeted) {
            if (bytes.length < GREETING_BYTES) return this.hold(bytes, []);
            if (!isStream(bytes)) throw new Error("this is no stream of ZMTP");
            this.hasGreeted = true;
            bytes = bytes.subarray(GREETING_BYTES);
        }
        const messages = [];
        for (let frame; (frame = frameAt(bytes)); bytes = bytes.subarray(frame.end)) this.take(frame, messages);
        return this.hold(bytes, messages);
    }

    hold(bytes, messages) {
        this.held = bytes.slice();
        return messages;
    }

    take({flags, body}, messages) {
        if (flags & COMMAND) return;
        this.frames.push(body.slice());
        if (flags & MORE) return;
        messages.push(this.frames);
        this.frames = [];
    }

    /** Whether the stream ends here between two messages. */
    get isWhole() {
        return this.hasGreeted && this.held.length === 0 && this.frames.length === 0;
    }
}

/** The frame at the beginning of bytes, or null if it isn't whole. */
function frameAt(bytes) {
    const flags = bytes[0], isLong = flags & LONG, from = isLong ? 9 : 2;
    if (bytes.length < from) return null;
    if (flags > 6) throw new Error("a frame has flags that ZMTP doesn't know");
    const length = isLong ? numberOf(bytes.subarray(1)) : bytes[1];
    if (length > MOST_BYTES) throw new Error(`a frame has ${length} bytes, and may have ${MOST_BYTES}`);
    return bytes.length < from + length ? null : {flags, body: bytes.subarray(from, from + length), end: from + length};
}
