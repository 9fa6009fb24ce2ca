declare global {
  interface SymbolConstructor { readonly asyncDispose: unique symbol; } // as the language's own types have it from version 5.2 on
}
type Listened = Parameters<EventTarget["addEventListener"]>;

/** What the numbers of `ERR` say. */
export declare const FAULTS: Readonly<Record<number, string>>;
export declare const START: string, SQUARES: readonly string[], PASS: "pass", HOST: string, PORT: number;

/** Whatever this package throws of its own. Where an argument is none, it throws RangeError or TypeError before anything is sent; of a text FormatError. */
export declare class ColuwenError extends Error {}
/** The server answered `ERR number`. */
export declare class Refused extends ColuwenError { readonly number: number; }
export declare class Unreachable extends ColuwenError {}
export declare class Broken extends ColuwenError {}
export declare class Silent extends ColuwenError {}
/** `deepest`: the last result of those that `deepen` has given; else null. */
export declare class Late extends ColuwenError { readonly deepest: Result | null; }
export declare class Closed extends ColuwenError {}
export declare class IllegalMove extends ColuwenError {}
/** A text that can't be read: why, and where, from 1; 0 where there is no line or column. */
export declare class FormatError extends ColuwenError { readonly text: string; readonly file: string; readonly line: number; readonly column: number; }
/** `greatest` is a depth that can be had of each position; 0 where nothing is known of less. */
export declare class TooDeep extends ColuwenError { readonly depth: number; readonly greatest: number; }

export type Side = "X" | "O";
/** = exactly, < at most, > at least. */
export type Sign = "=" | "<" | ">";

/** A move: its word, and its number, 0 to 63 for a1 to h8 and 64 for a pass. */
export declare class Move { constructor(move: AnyMove); readonly word: string; readonly square: number; }
export type AnyMove = string | number | Move;

export declare class Position {
  constructor(cells?: string, side?: Side);
  static opening(): Position; static parse(text: string): Position;
  readonly cells: string; readonly side: Side; readonly text: string; readonly empties: number; readonly isOver: boolean;
  legalMoves(): string[]; play(move: AnyMove): Position; flip(): Position;
  equals(other: unknown): boolean;
}

/** What a session has to have left so that a search, its only one then, is never spent, whatever the load; null where no session can have as much. */
export declare function enough(position: Position, depth: number, grain: number): { readonly segments: number; readonly nodes: number } | null;

/** As the player `side` sees it. Scores of one side are ordered by `<`. */
export declare class Score {
  constructor(value: number, sign?: Sign, ends?: boolean, side?: Side);
  static compare(one: Score, other: Score): number;
  readonly value: number; readonly sign: Sign; readonly ends: boolean; readonly side: Side;
  readonly unit: "points" | "discs";
  /** How many points or discs the side is ahead, and black, and white. */
  readonly mover: number; readonly black: number; readonly white: number;
  readonly isExact: boolean; readonly isDraw: boolean;
  flip(): Score;
  valueOf(): number;
}

export declare class Entry { constructor(move: string, score: Score); readonly move: string; readonly score: Score; }

/** A game that was read: passes are among its moves, `result` is black's discs less white's, and where it isn't whole its moves are those before the fault behind it. */
export interface Game extends Readonly<Record<"black" | "white" | "event" | "date", string>> {
  readonly start: Position; readonly final: Position; readonly moves: readonly string[]; readonly result: number | null; readonly isWhole: boolean;
}
/** The games of transcripts (a line each), GGF or SGF, and what is at fault in them, with line and column. */
export declare function games(text: string, how?: { file?: string; kind?: "lines" | "ggf" | "sgf" }): (Game | FormatError)[];

export interface Result {
  readonly position: Position; readonly depth: number; readonly score: Score;
  /** The first best move; null at depth 0 and in a finished game. */
  readonly best: string | null;
  readonly table: readonly Entry[];
  readonly milliseconds: number;
}

/** How deep mid-game positions are looked at: `sure` plies at each, `mostly` at most of them. */
export interface Info { readonly grain: number; readonly sure: number; readonly mostly: number; readonly version: string | null; }
/** Times are in milliseconds. */
export interface How { timeout?: number; signal?: AbortSignal; }
/** How many are answered, of these at fault; and how many there are, where the source says it. */
export interface Progress { readonly done: number; readonly faults: number; readonly total: number | undefined; }
export interface ManyHow extends How { order?: "asked" | "known"; window?: number; onProgress?: (progress: Progress) => void; }
export type Question = Position | string | readonly [position: Position | string, depth: number];
/** Of one of many questions its number from 0, itself as it was given, and its result or its fault. */
export type Outcome<Asked extends Question = Question> = { readonly index: number; readonly question: Asked; readonly result: Result; readonly fault?: undefined }
  | { readonly index: number; readonly question: Asked; readonly fault: Error; readonly result?: undefined };

/** What a client of a server and an engine of this host have in common. */
export declare abstract class Analyst extends EventTarget {
  analyse(position: string | Position, depth: number, how?: How): Promise<Result>;
  info(): Promise<Info>; ping(): Promise<number>; close(): Promise<void>;
  readonly window: number;
  analyseAll(position: string | Position, depth: number, how?: How): Promise<Entry[]>;
  /** The results 2, 4, 6 .. plies deep and at last `depth` (the greatest that can be had, where none is named); Late after `timeout` in all. */
  deepen(position: string | Position, depth?: number, how?: How): AsyncGenerator<Result, void, void>;
  analyseMany<Asked extends Question>(questions: Iterable<Asked> | AsyncIterable<Asked>, depth?: number, how?: ManyHow): AsyncGenerator<Outcome<Asked>, void, void>;
  [Symbol.asyncDispose](): Promise<void>;
}

/** A connection, and what it calls: `received` with each block as a string of its bytes. */
export interface Link { send(bytes: string): void; close(): void; hold?(isHeld: boolean): void; }
export interface Heard { opened(): void; received(bytes: string): void; lost(why: string, isFinal: boolean): void; }
/** What node's `tls.connect` takes, in node. */
export type Secure = boolean | object;
export type Dial = (place: { host: string; port: number; secure: Secure }, heard: Heard) => Link;

export interface PlaceOptions {
  host?: string; port?: number; token?: string;
  /** TLS: true, or what `tls.connect` takes. */
  secure?: Secure;
  /** What connects, where it isn't node's own sockets. */
  dial?: Dial;
}

type Numbers<Names extends string> = Partial<Record<Names, number>>;
export interface ClientOptions
  extends PlaceOptions, Numbers<"sessions" | "ahead" | "silence" | "outage" | "patience" | "timeout" | "segments" | "nodes"> {}
export interface EngineOptions extends Numbers<"workers" | "timeout"> {}

/** Values without a server: the proved search as WebAssembly, in workers of this process or page. No depth is beyond it. */
export declare class Engine extends Analyst { constructor(options?: EngineOptions); }

export interface ClientEvents {
  opened: ClientEvent<{ segments: number; nodes: number }>;
  full: ClientEvent<Refused>;
  silent: ClientEvent<Silent>;
  lost: ClientEvent<ColuwenError>;
}
export declare class ClientEvent<Detail> extends Event { readonly detail: Detail; }

export declare class Client extends Analyst {
  constructor(options?: ClientOptions);
  /** The server's `host:port`. */
  readonly address: string;
  addEventListener<Name extends keyof ClientEvents>(name: Name, heard: (event: ClientEvents[Name]) => void, options?: Listened[2]): void;
  addEventListener(name: string, heard: Listened[1], options?: Listened[2]): void;
  removeEventListener<Name extends keyof ClientEvents>(name: Name, heard: (event: ClientEvents[Name]) => void, options?: Parameters<EventTarget["removeEventListener"]>[2]): void;
  removeEventListener(name: string, heard: Listened[1], options?: Parameters<EventTarget["removeEventListener"]>[2]): void;
}

/** `othello://host:port`, and `?tls=1` or any other option by its name, times in seconds; without an address COLUWEN_URL's, or this host's. */
export declare function connect(address?: string, options?: ClientOptions): Client;
