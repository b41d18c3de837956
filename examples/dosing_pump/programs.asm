; Words of a task's window stand for what it keeps: Sample's word 0 is the flow so far, Control's word 0 the pump
; (1: on, 0: off) and word 1 its strokes.

.task Sample
        GETR SensorBus
        LI r4, 0
        LD r5, r4               ; what has flowed so far
        LI r6, 20               ; what flows between two samples
        ADD r5, r5, r6
        ST r4, r5
        RELR SensorBus
        SETE Control, FlowReady
        TERM
end:    JMP end

.task Control
        LI r4, 0
        LI r5, 1
        ST r4, r5               ; the pump is on
wait:   WAIT FlowReady + LeakFound
        GETE Control            ; r1 gets the events that are set
        LI r6, 2                ; LeakFound has the second bit
        AND r6, r1, r6
        JNE r6, r4, leak
        CLRE FlowReady
        LD r7, r5               ; one more stroke
        ADD r7, r7, r5
        ST r5, r7
        JMP wait
leak:   ST r4, r4               ; the pump is off
        CANA SampleTimer
        TERM
end:    JMP end

.task Panel
show:   GETR SensorBus
        NOP                     ; the level is read
        RELR SensorBus
        NOP                     ; and shown
        JMP show

.isr Leak
        SETE Control, LeakFound
        RETI
