/* Frames from standard input (480 samples of the key, then 480 of each channel of the bed, f32), a line for each: its number and by how many
 * dB the bed goes down, or its refusal. With the argument 5.1 the bed has six channels, else one. library/run builds and runs it. */
#include "freightpetal.h"

#include <stdio.h>
#include <string.h>

int main(int count, char **arguments)
{
    static const struct freightpetal_place five_one[FREIGHTPETAL_CHANNELS] = FREIGHTPETAL_5_1;
    static uint8_t image[FREIGHTPETAL_IMAGE_BYTES];
    static float samples[(1 + FREIGHTPETAL_CHANNELS) * FREIGHTPETAL_FRAME];
    const float *bed = samples + FREIGHTPETAL_FRAME;
    size_t channels = count > 1 && strcmp(arguments[1], "5.1") == 0 ? 6 : 1;
    unsigned long number = 0;

    if (freightpetal_fresh(image, sizeof image) != FREIGHTPETAL_PASSED)
        return 1;
    if (channels == 6 && freightpetal_layout(image, sizeof image, channels, five_one) != FREIGHTPETAL_PASSED)
        return 1;
    while (fread(samples, (1 + channels) * FREIGHTPETAL_FRAME * sizeof *samples, 1, stdin) == 1) {
        struct freightpetal_answer answer;
        uint64_t code =
            freightpetal_frame(image, sizeof image, samples, FREIGHTPETAL_FRAME, bed, channels * FREIGHTPETAL_FRAME, &answer);

        number++;
        if (code == FREIGHTPETAL_PASSED)
            printf("%lu %.2f\n", number, answer.reduction_db);
        else
            printf("%lu refused %d\n", number, (int)code);
    }
    return 0;
}
