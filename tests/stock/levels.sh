# Message levels, the debug set: numbers, number and mask, names.
begin "$root/examples/quay.box"

expect 0 "Settings for quay1:
        Current message level: 0x00000007 (7)
                               drv probe link" quay1

expect 0 "" -s quay1 msglvl 0x13
expect 0 "Settings for quay1:
        Current message level: 0x00000013 (19)
                               drv probe ifdown" quay1

expect 0 "" -s quay1 msglvl 9
expect 0 "Settings for quay1:
        Current message level: 0x00000009 (9)
                               drv timer" quay1

expect 0 "" -s quay1 msglvl 0xf0/0xf1
expect 0 "Settings for quay1:
        Current message level: 0x000000f8 (248)
                               timer ifdown ifup rx_err tx_err" quay1

expect 0 "" -s quay1 msglvl probe on rx_err off tx_err off
expect 0 "Settings for quay1:
        Current message level: 0x0000003a (58)
                               probe timer ifdown ifup" quay1

expect 0 "" -s quay1 msglvl 0
expect 0 "Settings for quay1:
        Current message level: 0x00000000 (0)
                              " quay1

expect 0 "Settings for quay2:
        Current message level: 0x00000007 (7)
                               drv probe link" quay2
