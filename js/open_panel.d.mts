/** A card, a question, seats, classes or a deck: a string (UTF-8), bytes, or numbers from 0 to 255. */
export type Bytes = string | Uint8Array | ArrayBuffer | Iterable<number>;

/** Where a card lies: in which deck, its first byte there, and how many bytes it has. */
export interface Part {
    inExpansion: boolean;
    offset: number;
    length: number;
}

/** What can be kept of a damaged deck, and a line for each of its entries: `kept`, or `dropped` and a rule from 1 to 4. */
export interface Mended {
    deck: Uint8Array;
    list: string;
}

/** What a function throws when it turns something down. */
export declare class Refusal extends Error {
    /** Which refusal: one of the numbers of open_panel.h. */
    readonly number: number;
    /** Its place; for 10 the length of room that is needed, or that the deck would have with a card more; for 18 the number of a card. */
    readonly place: number;
    /** What it means. */
    readonly words: string;
    /** What the place is in, where that is a text. */
    readonly of?: "card" | "question";
    /** The place as line and column, both from 1, where it is in a text. */
    readonly line?: number;
    readonly column?: number;
}

/**
 * The library. A function whose answer is nothing throws or does not; one of a number answers the header's `value`. Seats are a state each; on a
 * card whose seats share a number (`global g`), the value that it has now stands behind them. What is handed in stays as it is: a deck that is tidied, or
 * that a card is added to, comes back as a new one, as long as it has to be.
 */
export interface Panel {
    // ENTRIES
}

/** The version of this module, and of the library that it was made with. */
export declare const version: string;
/** The header's numbers: limits, rooms, the unit. */
export declare const numbers: Readonly<Record<string, number>>;
/** What a refusal's number means. */
export declare function words(number: number): string;
/** A place of a text as line and column, both from 1, in bytes; nothing for one beyond its end. */
export declare function lineAndColumn(text: Bytes, place: number): { line: number; column: number } | undefined;
/** The library, from the file beside this one, or from a module, its bytes or its place. */
export declare function load(source?: string | URL | ArrayBuffer | ArrayBufferView | WebAssembly.Module): Promise<Panel>;
