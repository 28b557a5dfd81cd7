// The header and the archive as a C++ program uses them.
#include "milechime.h"

#include <cstdio>
#include <vector>

int main()
{
    const std::vector<uint32_t> table = {0, 2796, 7334, 12301, 16839, 19635};
    const milechime_litres_answer answer = milechime_litres(50000, 10000, table.data(), table.size(), 5000);
    const bool right = answer.refusal == 0 && answer.place == 0 && answer.volume == 1398;
    std::printf("%s: height 5,000 gives 1,398 v, from C++\n", right ? "ok" : "FAILED");
    return right ? 0 : 1;
}
