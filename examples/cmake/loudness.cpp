// Plays an impulse through the plate and prints how loud each half second of what comes out is.
#include <plate.h>
#include <plate_words.h>

#include <cmath>
#include <cstdint>
#include <cstdio>
#include <stdexcept>
#include <string>
#include <vector>

// A plate with its memory. The library keeps nothing, so a copy of this is a second plate that goes on from here.
class Plate {
public:
    Plate(std::uint32_t size, float mix) : board(PLATE_BYTES), memory(PLATE_MEMORY(size)), size(size)
    {
        check(plate_write(size, mix, board.data(), board.size()));
        check(plate_fresh(board.data(), board.size(), memory.data(), memory.size()));
    }

    void mix(float value) { check(plate_mix(board.data(), board.size(), memory.data(), memory.size(), value)); }

    // Samples are bytes for the library: on a little-endian machine, a vector of floats has them as they must be.
    void block(const std::vector<float> &in, std::vector<float> &left, std::vector<float> &right)
    {
        left.resize(size), right.resize(size);
        check(plate_block(board.data(), board.size(), memory.data(), memory.size(),
                          reinterpret_cast<const std::uint8_t *>(in.data()), 4 * in.size(),
                          reinterpret_cast<std::uint8_t *>(left.data()), 4 * left.size(),
                          reinterpret_cast<std::uint8_t *>(right.data()), 4 * right.size()));
    }

private:
    static void check(plate_answer a)
    {
        if (a.number != PLATE_OK)
            throw std::runtime_error(std::to_string(a.number) + " " + std::to_string(a.place) + ": " + plate_words(a.number));
    }

    std::vector<std::uint8_t> board, memory;
    std::uint32_t size;
};

int main()
{
    const std::uint32_t size = 126; // 175 blocks are half a second
    Plate plate(size, 0.5f);
    plate.mix(1.0f);
    std::vector<float> in(size), left, right;
    in[0] = 1.0f;
    for (int half = 0; half < 8; half++) {
        double sum = 0;
        for (int k = 0; k < 175; k++) {
            plate.block(in, left, right);
            in[0] = 0.0f;
            for (std::uint32_t i = 0; i < size; i++)
                sum += double(left[i]) * double(left[i]) + double(right[i]) * double(right[i]);
        }
        std::printf("%.1f s to %.1f s: %6.1f dB\n", half * 0.5, half * 0.5 + 0.5, 10 * std::log10(sum + 1e-30));
    }

    try {
        plate.block(std::vector<float>(size + 1), left, right);
    } catch (const std::exception &e) {
        std::printf("a block too long: refused %s\n", e.what());
    }
    return 0;
}
