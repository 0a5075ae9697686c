; examples/customer.rules by hand.

        ld   [0]
        and  #0x0ffffff0        ; VPI and VCI
        jlt  #0x00100200, others
        jgt  #0x001007f0, others
        ldb  [3]
        and  #0x0d              ; two bits of the payload type, which are 10 for types 4 and 5, and the loss priority
        jeq  #0x08, oam
        jeq  #0x09, oam
        jset #0x01, low
        ret  #1
oam:    ret  #2
low:    ret  #3
others: ldb  [4]
        and  #0xf0
        jeq  #0x30, none
        ld   [8]
        jgt  #7, none
        ret  #4
none:   ret  #0
