import rlp_proved as rlp

data = rlp.encode([b"cat", 1000])
place = 1
for field in rlp.decode(data):
    print(f'"0x{field.hex()}" at {place}')
    place += len(rlp.encode(field))
try:
    rlp.decode(b"\xc2\x81\x05")
except rlp.DecodingError as error:
    print(error.name)
