// Every form of statement.

RWByteAddressBuffer output : register(u0);

uint steps_from(uint start) {
    uint value = start, steps;
    const uint limit = 0xffffu;
    uint2 seen[2] = {{0, 1}, uint2(2, 3), };
    steps = 0;

    // an else belongs to the nearest if that has none
    if (start == 0)
        return 0;
    if (start > 1) if (start > limit) return limit; else steps = 1;
    [branch] if (start < 8) {
        ;
    } else if (start < 16) {
        steps++;
    } else {
        --steps;
    }

    while (value != 1) {
        value = (value & 1) == 0 ? value / 2 : 3 * value + 1;
        if (++steps >= limit)
            break;
        continue;
    }
    [loop] while (false) ;

    do {
        seen[steps % 2].y = value;
        steps += 1;
    } while (steps < 4);
    [fastopt] do steps++; while (steps < 5);

    for (uint i = 0, k = 8; i < k; i++) {
        steps ^= i;
    }
    return steps;
}

[numthreads(64, 1, 1)]
void main(uint lane : SV_GroupIndex) {
    uint total = 0;
    [unroll(4)] [loop] for (uint i = 0; i < 4; i++)
        total += steps_from(lane + i);
    for (total <<= 1; ; ) {
        break;
    }
    for (;;) {
        return;
    }
    {
        output.Store(4 * lane, total);
    }
}
