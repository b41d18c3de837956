; Word 0 of Inject's window is how long the valve is open, word 0 of Ignite's how long the coil is charged.

.isr Tooth
        ACT Crank
        RETI

.task Crank
        LI r1, 3                ; ticks up to the injection
        LI r2, 0                ; once, without a cycle
        LI r3, 4                ; ticks up to the spark
        SREL InjectionTime, r1, r2
        SREL IgnitionTime, r3, r2
        TERM
end:    JMP end

.task Inject
        GETR Map
        LI r4, 0
        LI r5, 8
        ST r4, r5
        RELR Map
        TERM
end:    JMP end

.task Ignite
        GETR Map
        LI r4, 0
        LI r5, 12
        ST r4, r5
        RELR Map
        TERM
end:    JMP end
