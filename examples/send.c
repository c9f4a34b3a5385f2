/* Plans the house setting for the image on standard input, and sends the plan. */
#include <adv7194.h>
#include <stdio.h>

/* The board's address: the byte that starts a write. */
#define ADDRESS 0x54
/* The most data bytes in one transaction. A bus that others wait for takes fewer. */
#define LIMIT ADV7194_NO_LIMIT

/* Start, address, subaddress, data, stop. A board's own bus driver goes here; this prints the bytes. */
static void bus_write(uint32_t subaddress, const uint8_t *data, uint32_t count)
{
    printf("%02X %02X", ADDRESS, (unsigned)subaddress);
    for (uint32_t i = 0; i < count; i++)
        printf(" %02X", data[i]);
    printf("\n");
}

int main(void)
{
    uint8_t image[ADV7194_REGISTERS], plan[ADV7194_PLAN_ROOM], data[ADV7194_DATA_ROOM];
    int32_t house[ADV7194_SETTINGS];
    size_t length = fread(image, 1, sizeof image, stdin);
    adv7194_house(house, ADV7194_SETTINGS);
    adv7194_plan_answer answer = adv7194_plan(image, length, ADV7194_ALL_KNOWN, house, ADV7194_SETTINGS, ADDRESS,
                                              LIMIT, plan, sizeof plan);
    if (answer.refusal != ADV7194_ACCEPTED) {
        printf("REFUSED %u %u\n", (unsigned)answer.refusal, (unsigned)answer.field);
        return 1;
    }
    for (uint32_t index = 0;; index++) {
        adv7194_transaction_answer next = adv7194_transaction(plan, answer.length, index, data, sizeof data);
        if (next.refusal != ADV7194_ACCEPTED)
            break;
        bus_write(next.subaddress, data, next.count);
    }
    return 0;
}
