/* The sums of all fronts of a buffer, 64 words by each group: each lane adds the words of the lanes before it,
   in six rounds. */

struct Row {
    uint first, count;
};

StructuredBuffer<Row> rows : register(t0);
ByteAddressBuffer input : register(t1);
RWByteAddressBuffer output : register(u0);

groupshared uint sums[2][64];

static const uint lanes = 64u;

uint read_word(Row row, uint index) {
    return index < row.count ? input.Load(4 * (row.first + index)) : 0;
}

[numthreads(64, 1, 1)]
void main(uint3 group : SV_GroupID, uint lane : SV_GroupIndex) {
    const Row row = rows[group.x];
    uint now = 0;
    sums[now][lane] = read_word(row, lane);
    GroupMemoryBarrierWithGroupSync();

    [unroll] for (uint step = 1; step < lanes; step <<= 1) {
        const uint last = now;
        now = 1 - now;
        sums[now][lane] = sums[last][lane];
        if (lane >= step)
            sums[now][lane] += sums[last][lane - step];
        GroupMemoryBarrierWithGroupSync();
    }

    if (lane < row.count)
        output.Store(4 * (row.first + lane), sums[now][lane]);
}
