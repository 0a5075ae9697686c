; 2: vpi 1 and vci 32..127 {
L0: ld [0]
L1: and #268435440
L2: jge #1049088, L3, L12
L3: jgt #1050608, L12, L4
; 3:   oamf5 -> 2
L4: ld [0]
L5: and #12
L6: jeq #8, L7, L8
L7: ret #2
; 4:   clp 1 -> 3
L8: ld [0]
L9: jset #1, L10, L11
L10: ret #3
; 5:   any   -> 1
L11: ret #1
; 7: not (octet 4 & 0xf0 = 0x30 or word 8 > 7) -> 4
L12: ldb [4]
L13: and #240
L14: jeq #48, L18, L15
L15: ld [8]
L16: jgt #7, L18, L17
L17: ret #4
; otherwise
L18: ret #0
