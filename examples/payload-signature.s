; Sorts cells that begin an IPv4 packet in LLC encapsulation (RFC 2684): UDP goes to contract 2, the
; other protocols to contract 1. Every other cell goes to contract 3.
; The payload begins at offset 4: LLC and SNAP take eight octets, so the IPv4 header begins at 12.

        ld   [4]
        jne  #0xaaaa0300, other     ; LLC AA-AA-03, and the first octet of the OUI 00-00-00
        ld   [8]
        jne  #0x00000800, other     ; the rest of the OUI, and the type of IPv4
        ldb  [21]                   ; the protocol, at offset 9 of the IPv4 header
        jeq  #17, udp
        ret  #1
udp:    ret  #2
other:  ret  #3
