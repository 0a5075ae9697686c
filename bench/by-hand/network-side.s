; examples/network-side.rules by hand.

        ld   [0]
        jlt  #0x10000000, none  ; VPI 256 to 4095
        and  #0x000ffff0        ; the VCI
        jlt  #0x00000200, none
        ldb  [3]
        jset #0x01, low
        ret  #1
low:    ret  #2
none:   ret  #0
