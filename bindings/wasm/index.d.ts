/** UTF-16 is a string or its units; a result is always an array. */
export type Utf16 = string | Uint16Array;
export declare const Lossy: Readonly<{ Each: 0; Run: 1; Skip: 2 }>;
export type Lossy = (typeof Lossy)[keyof typeof Lossy];
export declare const Order: Readonly<{ Little: 0; Big: 1 }>;
export type Order = (typeof Order)[keyof typeof Order];
export declare const Scheme: Readonly<{
    Utf8: 0; Utf16Le: 1; Utf16Be: 2; Utf16: 3; Utf32Le: 4; Utf32Be: 5; Utf32: 6; Wtf8: 7;
}>;
export type Scheme = (typeof Scheme)[keyof typeof Scheme];

export declare class Fault extends RangeError {
    readonly offset: number;
}

export interface Item {
    offset: number;
    length: number;
    isFault: boolean;
    value: number;
}

export declare class Widestring {
    version(): [number, number, number];
    utf8FirstFault(text: Uint8Array): number | undefined;
    utf16FirstFault(text: Utf16): number | undefined;
    utf32FirstFault(text: Uint32Array): number | undefined;
    wtf8FirstFault(text: Uint8Array): number | undefined;
    utf8FaultCount(text: Uint8Array): number;
    utf16FaultCount(text: Utf16): number;
    utf32FaultCount(text: Uint32Array): number;
    utf8CharCount(text: Uint8Array): number | undefined;
    utf16CharCount(text: Utf16): number | undefined;
    utf32CharCount(text: Uint32Array): number | undefined;
    utf8IsAscii(text: Uint8Array): boolean;
    utf16IsAscii(text: Utf16): boolean;
    utf32IsAscii(text: Uint32Array): boolean;
    utf16FloorCharBoundary(text: Utf16, offset: number): number;
    utf16Find(text: Utf16, needle: Utf16): number | undefined;
    utf32Find(text: Uint32Array, needle: Uint32Array): number | undefined;
    utf16Rfind(text: Utf16, needle: Utf16): number | undefined;
    utf32Rfind(text: Uint32Array, needle: Uint32Array): number | undefined;
    utf16FindIgnoreAsciiCase(text: Utf16, needle: Utf16): number | undefined;
    utf32FindIgnoreAsciiCase(text: Uint32Array, needle: Uint32Array): number | undefined;
    utf16EqIgnoreAsciiCase(text: Utf16, other: Utf16): boolean;
    utf32EqIgnoreAsciiCase(text: Uint32Array, other: Uint32Array): boolean;
    utf16CompareCodePoints(text: Utf16, other: Utf16): number;
    utf32CompareCodePoints(text: Uint32Array, other: Uint32Array): number;
    utf16ToUtf8(text: Utf16, policy?: Lossy): Uint8Array;
    utf32ToUtf8(text: Uint32Array, policy?: Lossy): Uint8Array;
    utf8ToUtf16(text: Uint8Array, policy?: Lossy): Uint16Array;
    utf8ToUtf32(text: Uint8Array, policy?: Lossy): Uint32Array;
    utf16ToUtf32(text: Utf16, policy?: Lossy): Uint32Array;
    utf32ToUtf16(text: Uint32Array, policy?: Lossy): Uint16Array;
    wtf8ToUtf16(text: Uint8Array): Uint16Array;
    utf16ToWtf8(text: Utf16): Uint8Array;
    utf16Repair(text: Utf16): Uint16Array;
    utf32Repair(text: Uint32Array): Uint32Array;
    utf16ToAsciiLowercase(text: Utf16): Uint16Array;
    utf16ToAsciiUppercase(text: Utf16): Uint16Array;
    utf32ToAsciiLowercase(text: Uint32Array): Uint32Array;
    utf32ToAsciiUppercase(text: Uint32Array): Uint32Array;
    utf16ToBytes(text: Utf16, order: Order): Uint8Array;
    utf32ToBytes(text: Uint32Array, order: Order): Uint8Array;
    utf16FromBytes(bytes: Uint8Array, order: Order): Uint16Array;
    utf32FromBytes(bytes: Uint8Array, order: Order): Uint32Array;
    toString16(units: Uint16Array): string;
    utf16Items(text: Utf16): Item[];
    converter(from: Scheme, to: Scheme, policy?: Lossy, bom?: boolean): Converter;
}

export declare class Converter {
    readonly bytes: number;
    readonly items: number;
    readonly faults: number;
    readonly kept: number;
    convert(data: Uint8Array, final?: boolean): Uint8Array;
}

export declare function load(source?: URL | string | BufferSource): Promise<Widestring>;
