; Spreads cells over contracts 1 to 4 by a hash of the payload's first twelve octets.
; Multiplication by an odd constant near 2^32 / 1.618 carries low bits into high ones (Knuth, The Art
; of Computer Programming, 6.4), and the two highest bits choose.

        ld   [4]
        mul  #0x9e3779b1
        tax
        ld   [8]
        add  x
        mul  #0x9e3779b1
        tax
        ld   [12]
        add  x
        mul  #0x9e3779b1
        rsh  #30            ; 0 to 3
        add  #1             ; contracts count from 1
        ret  a
