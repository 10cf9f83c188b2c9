/** The fields of records of Ethereum, in their order. */

// The fields of each record with their kinds: "number" is read as a bigint, "bytes" stay as they are, "to" is null where
// there are none, and the others are lists.
const of = (text) => text.split(" ").map((word) => word.split(":")).map(([name, kind = "number"]) => ({ name, kind }));
const SIGNED = "yParity r s";
const FEES = "chainId nonce maxPriorityFeePerGas maxFeePerGas gasLimit";
export const TRANSACTIONS = [
  of("nonce gasPrice gasLimit to:to value data:bytes v r s"),
  of(`chainId nonce gasPrice gasLimit to:to value data:bytes accessList:access ${SIGNED}`),
  of(`${FEES} to:to value data:bytes accessList:access ${SIGNED}`),
  of(`${FEES} to:bytes value data:bytes accessList:access maxFeePerBlobGas blobVersionedHashes:list ${SIGNED}`),
  of(`${FEES} to:bytes value data:bytes accessList:access authorizationList:authorizations ${SIGNED}`),
];
export const TRANSACTION_NAMES = ["legacy", "EIP-2930", "EIP-1559", "EIP-4844", "EIP-7702"];
export const AUTHORIZATION = of("chainId address:bytes nonce yParity r s");
export const HEADER = of(
  "parentHash:bytes ommersHash:bytes beneficiary:bytes stateRoot:bytes transactionsRoot:bytes receiptsRoot:bytes " +
    "logsBloom:bytes difficulty number gasLimit gasUsed timestamp extraData:bytes mixHash:bytes nonce:bytes " +
    "baseFeePerGas withdrawalsRoot:bytes blobGasUsed excessBlobGas parentBeaconBlockRoot:bytes requestsHash:bytes " +
    "blockAccessListHash:bytes slotNumber",
);
export const FORKS = { 15: "Frontier", 16: "London", 17: "Shanghai", 20: "Cancun", 21: "Prague", 22: "Amsterdam", 23: "Amsterdam" };
