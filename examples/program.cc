#include <hpsdr.h>

#include <algorithm>
#include <cstdlib>
#include <iostream>

// Reads a recording of three receivers from standard input and prints the peak of each.
int main() {
    constexpr std::size_t receivers = 3;
    std::uint8_t piece[HPSDR_PIECE_MOST], frames[HPSDR_OUTPUT_LEAST];
    std::int32_t peaks[receivers] = {};
    hpsdr_stream stream;
    hpsdr_status status;
    hpsdr_samples samples;
    hpsdr_row row;

    hpsdr_stream_init(&stream);
    hpsdr_status_init(&status);
    hpsdr_row_of(receivers, &row);
    while (std::cin.read(reinterpret_cast<char *>(piece), sizeof piece) || std::cin.gcount() > 0) {
        const auto fed = hpsdr_feed(&stream, piece, static_cast<std::size_t>(std::cin.gcount()), frames);
        for (std::uint32_t k = 0; k < hpsdr_found_in(fed); k++) {
            if (hpsdr_answer_of(hpsdr_read(frames + HPSDR_FRAME * k, receivers, &samples, &status)) != HPSDR_ACCEPTED)
                continue;
            for (std::size_t at = 0; at < 2 * receivers * row.slots; at++) {
                std::int32_t &peak = peaks[at / 2 % receivers];
                peak = std::max(peak, std::abs(samples.iq[at]));
            }
        }
    }
    for (std::size_t r = 0; r < receivers; r++)
        std::cout << "receiver " << r + 1 << ": peak " << peaks[r] << '\n';
}
