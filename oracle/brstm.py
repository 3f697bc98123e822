"""One channel of DSP-ADPCM frames as a BRSTM file, which ffmpeg decodes (`ffmpeg -f brstm -i FILE -f s16le -`)."""

import struct


def brstm(coefficients, yn1, yn2, count, frames, rate=32728):
    """16 coefficients, the history, the sample count and ceil(count / 14) * 8 bytes; gives the file's bytes."""
    n = (count + 13) // 14 * 8
    assert len(frames) == n and len(coefficients) == 16
    head_at, head_size = 0x40, 0x200
    head = bytearray(head_size)

    def put(at, data):
        head[at:at + len(data)] = data

    adpc = b'ADPC' + struct.pack('>I', 32) + struct.pack('>hh', yn1, yn2) + bytes(20)
    data_at = head_at + head_size + len(adpc) + 32
    put(0, b'HEAD' + struct.pack('>I', head_size))
    put(8, struct.pack('>6I', 0x01000000, 0x18, 0x01000000, 0x50, 0x01000000, 0x60))
    # codec 2 (ADPCM), no loop, one channel; rate; loop start; samples; where the data begins; one block, and its sizes
    put(0x20, struct.pack('>BBBBHH', 2, 0, 1, 0, rate, 0))
    put(0x28, struct.pack('>10I', 0, count, data_at, 1, n, count, n, count, n, count))
    put(0x68, struct.pack('>BBH', 1, 0, 0) + struct.pack('>III', 0x01000000, 0x70, 0x70))
    put(0x80, struct.pack('>16h', *coefficients))
    data = b'DATA' + struct.pack('>II', 32 + n, 24) + bytes(20) + frames
    size = head_at + head_size + len(adpc) + len(data)
    file_head = (b'RSTM' + struct.pack('>HBBIHH', 0xFEFF, 1, 0, size, head_at, 2)).ljust(head_at, b'\0')
    return file_head + bytes(head) + adpc + data
