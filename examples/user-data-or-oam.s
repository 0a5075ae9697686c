; User data goes to contract 1, OAM and resource management cells to contract 2.
; Payload types 0 to 3 are user data (ITU-T I.361): their highest bit is 0.

        ldb  [3]            ; low bits of the VCI, payload type (3 bits), cell loss priority
        and  #0xe           ; the payload type, times two
        jge  #8, oam, data  ; payload type 4 or above?
data:   ret  #1
oam:    ret  #2
