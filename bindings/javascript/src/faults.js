/** The faults of the library, by their numbers. */

const FAULTS = {
  1: ["RlpIsTooBig", "bytes follow the item, or a number or an address has too many"],
  2: ["RlpIsTooShort", "the bytes end before the item does, or an address has too few"],
  3: ["RlpExpectedToBeList", "there is no list"],
  4: ["RlpExpectedToBeData", "there is a list in place of a string"],
  5: ["RlpIncorrectListLen", "there is a field too few or too many"],
  6: ["RlpDataLenWithZeroPrefix", "the length of a string begins with a zero byte"],
  7: ["RlpListLenWithZeroPrefix", "the length of a list begins with a zero byte"],
  8: ["RlpInvalidIndirection", "there is a shorter encoding, or a number begins with a zero byte"],
  9: ["RlpInconsistentLengthAndData", "the bytes end before the string does"],
  10: ["RlpInvalidLength", "a header and its string are 2^64 bytes or more"],
  11: ["RlpInvalidSignature", "a number of a signature is out of range"],
  13: ["RlpNoRoom", "the room is less than what is needed"],
  14: ["RlpTooDeep", "there are more lists, one in the other, than allowed"],
  15: ["RlpBadItems", "the items describe no tree"],
  16: ["RlpUnknownType", "the type of the transaction isn't known"],
};

/** Bytes were refused. */
export class RlpError extends Error {
  constructor(status, { place, field, fieldName } = {}) {
    const [name, why] = FAULTS[status] ?? [`RlpStatus${status}`, "the status isn't known"];
    const where = field !== undefined && field > 0 ? ` in field ${field}${fieldName ? `, ${fieldName}` : ""}` : "";
    super(`${why}${where}${place === undefined ? "" : `, at byte ${place}`}`);
    this.name = name;
    this.status = status;
    this.place = place;
    this.field = field;
    this.fieldName = fieldName;
  }
}
