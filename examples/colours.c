/* Codes of panel colours, and back: three good ones, then one refusal of each call. */
#include <inttypes.h>
#include <stdio.h>

#include "hubeltxa.h"

static void there_and_back(float red, float green, float blue)
{
    uint32_t codes[3], number;
    float shown[3];

    number = hbx_codes(red, green, blue, &codes[0], &codes[1], &codes[2]);
    printf("codes  %" PRIu32 ": %" PRIu32 " %" PRIu32 " %" PRIu32 "\n", number, codes[0], codes[1], codes[2]);
    number = hbx_floats(codes[0], codes[1], codes[2], &shown[0], &shown[1], &shown[2]);
    printf("floats %" PRIu32 ": %.9g %.9g %.9g\n", number, shown[0], shown[1], shown[2]);
}

int main(void)
{
    float shown[3];
    uint32_t number;

    there_and_back(0.25f, 0.5f, 0.75f);
    there_and_back(0.1f, 0.2f, 0.3f);
    there_and_back(-0.0f, 1e-9f, 0.99999994f);
    there_and_back(0.25f, 0.5f, HBX_CHANNEL_LIMIT);
    number = hbx_floats(1, HBX_MOST_CODE + 1, 2, &shown[0], &shown[1], &shown[2]);
    printf("floats %" PRIu32 ": %.9g %.9g %.9g\n", number, shown[0], shown[1], shown[2]);
    return 0;
}
