; Virtual paths 16 to 31 go to contract 1, all others to contract 2.

        ldh  [0]            ; GFC (4 bits), VPI (8 bits), high bits of the VCI (4 bits)
        rsh  #4
        and  #0xff          ; the VPI
        jlt  #16, other
        jgt  #31, other
        ret  #1
other:  ret  #2
