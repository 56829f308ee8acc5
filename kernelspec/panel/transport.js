// The way to the boards: those of a Jupyter server, or those that this browser runs. Both have
//
//     open(kernel, session, handlers)   connects: a WebSocket, or what has its `send`, `close` and `readyState`; the handlers are
//                                       its `onopen`, `onmessage` and `onclose`, and messages are texts, as a server's are
//     has(kernel)                       {hasEnded, isShut, loss, way}: whether the board has ended, whether the server wants a
//                                       login, why it can't be reached, if that is known, and a link that helps, or null
//     boards()                          the boards that run, each {id, name}
//     start()                           starts a board: {id}, or {refusal} in words
//     cells(kernel)                     cells in the form of a notebook, among which are the board's texts
//     lessons()                         {address} of the lessons, or {refusal} in words
//     addressWith(letters)              {address, isOwn, warning} of a page that has a program, packed as MOST_SHARED letters at
//                                       most; `isOwn` if that is this page
//     startsAtOnce, hasJournal          whether a page without a board gets a new one; whether boards have a journal to fill
import * as server from "./server_line.js";
import {isSite} from "./server.js";

// a Jupyter server doesn't have all that the other one imports
export const transport = isSite ? await import("./worker_line.js") : server;
