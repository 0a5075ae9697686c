; the classes of examples/customer.rules, by hand
        ld [0]
        rsh #4
        and #0xffffff                  ; path and channel
        jge #0x10020, low, refuse
low:    jgt #0x1007f, refuse, class
class:  ldb [3]
        jset #8, oam, user             ; the first bit of PTI
oam:    ret #2
user:   jset #1, tagged, good          ; CLP
tagged: ret #3
good:   ret #1
refuse: ret #0
