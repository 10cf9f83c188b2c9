/** A byte string: bytes, hexadecimal digits behind `0x`, other text as UTF-8, a number, or nothing for the empty string. */
export type ByteString = Uint8Array | string | number | bigint | null | undefined;

/** What can be encoded: a byte string, or a list. */
export type Input = ByteString | readonly Input[];

/** What bytes are: a string, or a list. The strings of one call share one copy of the bytes. */
export type Decoded = Uint8Array | Decoded[];

/** Bytes to read: as they are, or as hexadecimal digits behind `0x`. */
export type Bytes = Uint8Array | `0x${string}`;

export interface Options {
  /** How many lists may lie one in the other: 256 if not given, and never more. */
  maxDepth?: number;
}

/** The first item of some bytes, and the bytes behind it. */
export interface First {
  data: Decoded;
  remainder: Uint8Array;
}

/** The number of a fault, as in `rlp.h`. */
export type Status = 1 | 2 | 3 | 4 | 5 | 6 | 7 | 8 | 9 | 10 | 11 | 13 | 14 | 15 | 16;

export type FaultName =
  | "RlpIsTooBig"
  | "RlpIsTooShort"
  | "RlpExpectedToBeList"
  | "RlpExpectedToBeData"
  | "RlpIncorrectListLen"
  | "RlpDataLenWithZeroPrefix"
  | "RlpListLenWithZeroPrefix"
  | "RlpInvalidIndirection"
  | "RlpInconsistentLengthAndData"
  | "RlpInvalidLength"
  | "RlpInvalidSignature"
  | "RlpNoRoom"
  | "RlpTooDeep"
  | "RlpBadItems"
  | "RlpUnknownType";

/** Bytes were refused. */
export class RlpError extends Error {
  constructor(status: number, where?: { place?: number; field?: number; fieldName?: string });
  name: FaultName;
  status: Status;
  /** Where the item begins that has the fault. `encode` gives none. */
  place: number | undefined;
  /** For a transaction or header: the number of the field, 1 for the first, and 0 if the whole has the fault. */
  field: number | undefined;
  /** The name of that field, if there is one of this number. */
  fieldName: string | undefined;
}

/** An item of some bytes. Its payload begins at `offset + headerLength`. */
export interface Item {
  offset: number;
  headerLength: number;
  payloadLength: number;
  /** The number of lists around it. */
  depth: number;
  isList: boolean;
}

/** The items of an encoding, each before those in it. They are in the library's memory, until the next call. */
export class Rows implements Iterable<Item> {
  private constructor();
  readonly length: number;
  /** Whether no call has come since. If one has, all but `length` throw. */
  readonly isCurrent: boolean;
  /** Eight words for each item: offset, header and payload with two each, the low one first; depth; and 1 for a list. */
  readonly words: Uint32Array;
  /** The bytes that were read. */
  readonly bytes: Uint8Array;
  offset(row: number): number;
  headerLength(row: number): number;
  payloadLength(row: number): number;
  depth(row: number): number;
  isList(row: number): boolean;
  item(row: number): Item;
  [Symbol.iterator](): Iterator<Item>;
  /** The same rows in memory of their own. */
  copy(): Rows;
}

/** An item of an encoding, with the items in it, which are made when they are asked for. It stays as it is. */
export class Tree implements Iterable<Tree>, Item {
  private constructor();
  readonly offset: number;
  readonly headerLength: number;
  readonly payloadLength: number;
  readonly depth: number;
  readonly isList: boolean;
  /** The payload: the bytes of a string, or the encodings of a list's items. The whole tree shares one copy of the bytes. */
  readonly bytes: Uint8Array;
  /** The number of a list's items. A string has none. */
  readonly length: number;
  /** An item of a list by its place, which counts from the end if it is negative. */
  at(index: number): Tree | undefined;
  [Symbol.iterator](): Iterator<Tree>;
  /** The value, as `decode` gives it. */
  value(): Decoded;
}

/** The items of some bytes up to the first fault, which is null if there is none. */
export interface Inspected {
  rows: Rows;
  fault: RlpError | null;
}

export interface Field extends Item {
  name: string;
  kind: "number" | "bytes" | "to" | "list" | "access" | "authorizations";
}

export interface Access {
  address: Uint8Array;
  storageKeys: Uint8Array[];
}

export interface Authorization {
  chainId: bigint;
  address: Uint8Array;
  nonce: bigint;
  yParity: bigint;
  r: bigint;
  s: bigint;
}

interface Common {
  nonce: bigint;
  gasLimit: bigint;
  /** `null` for a transaction that makes a contract. */
  to: Uint8Array | null;
  value: bigint;
  data: Uint8Array;
  r: bigint;
  s: bigint;
}

export interface Legacy extends Common {
  gasPrice: bigint;
  v: bigint;
}

interface Typed extends Common {
  chainId: bigint;
  accessList: Access[];
  yParity: bigint;
}

export interface AccessListTransaction extends Typed {
  gasPrice: bigint;
}

export interface FeeMarketTransaction extends Typed {
  maxPriorityFeePerGas: bigint;
  maxFeePerGas: bigint;
}

export interface BlobTransaction extends FeeMarketTransaction {
  to: Uint8Array;
  maxFeePerBlobGas: bigint;
  blobVersionedHashes: Uint8Array[];
}

export interface SetCodeTransaction extends FeeMarketTransaction {
  to: Uint8Array;
  authorizationList: Authorization[];
}

export type Transaction = { items: Field[] } & (
  | { type: 0; typeName: "legacy"; fields: Legacy }
  | { type: 1; typeName: "EIP-2930"; fields: AccessListTransaction }
  | { type: 2; typeName: "EIP-1559"; fields: FeeMarketTransaction }
  | { type: 3; typeName: "EIP-4844"; fields: BlobTransaction }
  | { type: 4; typeName: "EIP-7702"; fields: SetCodeTransaction }
);

export interface Header {
  /** The first fork whose headers have these fields. */
  fork: "Frontier" | "London" | "Shanghai" | "Cancun" | "Prague" | "Amsterdam";
  fields: {
    parentHash: Uint8Array;
    ommersHash: Uint8Array;
    beneficiary: Uint8Array;
    stateRoot: Uint8Array;
    transactionsRoot: Uint8Array;
    receiptsRoot: Uint8Array;
    logsBloom: Uint8Array;
    difficulty: bigint;
    number: bigint;
    gasLimit: bigint;
    gasUsed: bigint;
    timestamp: bigint;
    extraData: Uint8Array;
    mixHash: Uint8Array;
    nonce: Uint8Array;
    baseFeePerGas?: bigint;
    withdrawalsRoot?: Uint8Array;
    blobGasUsed?: bigint;
    excessBlobGas?: bigint;
    parentBeaconBlockRoot?: Uint8Array;
    requestsHash?: Uint8Array;
    blockAccessListHash?: Uint8Array;
    slotNumber?: bigint;
  };
  items: Field[];
}

/** The functions over one instance of the module. All but those in steps are done when they return, and none keeps its arguments. */
export class Codec {
  constructor(instance: WebAssembly.Instance);
  /** How many bytes of memory the library has. It grows to what the largest call needed, and stays so. */
  readonly memorySize: number;
  /** The encoding. Throws a TypeError for a value that has none, and an RlpError for lists that nest too deep. */
  encode(input: Input): Uint8Array;
  /** The same in steps of some thousands of items or a call of the library, between which a page can answer. It yields how many items
   * have been found. */
  encodeInSteps(input: Input): Generator<number, Uint8Array, void>;
  /** The value whose canonical encoding the bytes are. No bytes at all are the empty string, as for `@ethereumjs/rlp`. */
  decode(bytes: ByteString, options?: false | (Options & { stream?: false })): Decoded;
  /** The value of the item that the bytes begin with, and the bytes behind it. */
  decode(bytes: ByteString, options: true | (Options & { stream: true })): First;
  isCanonical(bytes: Bytes, options?: Options): boolean;
  /** The items of the canonical encoding that the bytes are. Nothing is copied out of the library's memory. */
  flatten(bytes: Bytes, options?: Options): Rows;
  /** The item whose canonical encoding the bytes are, of which only what is asked for is made. */
  tree(bytes: Bytes, options?: Options): Tree;
  /** The items up to the first fault, which is null if there is none. */
  inspect(bytes: Bytes, options?: Options): Inspected;
  /** The same in steps of a call of the library or some thousands of items, between which a page can answer. It yields how many bytes have
   * been looked at. Other calls of the codec end it by an Error. */
  inspectInSteps(bytes: Bytes, options?: Options): Generator<number, Inspected, void>;
  /** The item that the bytes begin with. Others may follow it. */
  header(bytes: Bytes): Item;
  /** The standalone transaction that the bytes are, as in EIP-2718. */
  transaction(bytes: Bytes): Transaction;
  /** The header of a block. */
  headerFields(bytes: Bytes): Header;
}

export type Functions = Pick<
  Codec,
  "encode" | "encodeInSteps" | "decode" | "isCanonical" | "flatten" | "tree" | "inspect" | "inspectInSteps" | "header" | "transaction" | "headerFields"
>;

/** Compiles the module, from its bytes or the answer of `fetch`, and makes a codec with a memory of its own. */
export function load(
  source: BufferSource | Response | WebAssembly.Module | PromiseLike<BufferSource | Response | WebAssembly.Module>,
): Promise<Codec>;

/** The functions of a codec, each a separate export. */
export function functionsOf(codec: Codec): Functions;
/** Hexadecimal digits behind `0x`, or without it. An odd number of digits has a 0 in front. */
export function fromHex(text: string): Uint8Array;
export function toHex(bytes: Uint8Array): `0x${string}`;
export function fromBase64(text: string): Uint8Array;
export const DEPTH_LIMIT: 256;
