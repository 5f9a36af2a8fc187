// The header as C++ reads it, and the archive as C++ links it: without extern "C" the name below is another, which no archive has.
#include <negwafir.h>

int main() {
    return negwafir_check(NEGWAFIR_MOST_UNIT, nullptr, 0, nullptr, 0, nullptr, 0).number == NEGWAFIR_COUNT ? 0 : 1;
}
