// Values of Othello positions, from a server of `othello serve` or by an engine of this process or page, without packages.
export { Analyst, Entry } from "./analyst.mjs";
export { Move, PASS, Position, SQUARES, START } from "./board.mjs";
export { Client, ClientEvent, HOST, PORT, connect } from "./client.mjs";
export { enough } from "./core.mjs";
export { Engine } from "./engine.mjs";
export { Broken, Closed, ColuwenError, FAULTS, FormatError, IllegalMove, Late, Refused, Silent, TooDeep, Unreachable } from "./faults.mjs";
export { games } from "./formats.mjs";
export { Score } from "./score.mjs";
