/* The trim table's fields (5.5.12), by the names of the standard. */
#include "command.h"

static const uint8_t *config_of(const reading *r, unsigned c)
{
    return r->trim + SKRIEMELT_TRIM_CONFIG + SKRIEMELT_TRIM_CONFIG_STRIDE * c;
}

/* The values of a configuration: which bit of what is carried stands for it, its place, its name. */
static const struct value {
    unsigned carried, place;
    const char *name;
} values[] = {
    {SKRIEMELT_TRIM_CARRIED_CENTRE, SKRIEMELT_TRIM_CONFIG_CENTRE, "trim_centre"},
    {SKRIEMELT_TRIM_CARRIED_SURROUND, SKRIEMELT_TRIM_CONFIG_SURROUND, "trim_surround"},
    {SKRIEMELT_TRIM_CARRIED_HEIGHT, SKRIEMELT_TRIM_CONFIG_HEIGHT, "trim_height"},
    {SKRIEMELT_TRIM_CARRIED_TB, SKRIEMELT_TRIM_CONFIG_SIGN_TB, "bal3D_Y_sign_tb_code"},
    {SKRIEMELT_TRIM_CARRIED_TB, SKRIEMELT_TRIM_CONFIG_AMOUNT_TB, "bal3D_Y_amount_tb"},
    {SKRIEMELT_TRIM_CARRIED_LIS, SKRIEMELT_TRIM_CONFIG_SIGN_LIS, "bal3D_Y_sign_lis_code"},
    {SKRIEMELT_TRIM_CARRIED_LIS, SKRIEMELT_TRIM_CONFIG_AMOUNT_LIS, "bal3D_Y_amount_lis"},
};

static void print_config(const uint8_t *config, unsigned c)
{
    size_t i;

    print("trim.%u.b_default_trim=%u\n", c, config[SKRIEMELT_TRIM_CONFIG_DEFAULT]);
    if (config[SKRIEMELT_TRIM_CONFIG_DEFAULT])
        return;
    print("trim.%u.b_disable_trim=%u\n", c, config[SKRIEMELT_TRIM_CONFIG_DISABLE]);
    if (config[SKRIEMELT_TRIM_CONFIG_DISABLE])
        return;
    print("trim.%u.trim_balance_presence=%u\n", c, config[SKRIEMELT_TRIM_CONFIG_CARRIED]);
    for (i = 0; i < sizeof values / sizeof values[0]; i++) {
        if ((config[SKRIEMELT_TRIM_CONFIG_CARRIED] & values[i].carried) != 0)
            print("trim.%u.%s=%u\n", c, values[i].name, config[values[i].place]);
    }
}

void print_trim(const reading *r)
{
    unsigned i;

    if (r->answer.refusal != SKRIEMELT_ACCEPTED)
        return;
    print("trim.present=%u\n", r->trim[SKRIEMELT_TRIM_PRESENT]);
    if (!r->trim[SKRIEMELT_TRIM_PRESENT])
        return;
    print("trim.warp_mode=%u\n", r->trim[SKRIEMELT_TRIM_WARP_MODE]);
    print("trim.global_trim_mode=%u\n", r->trim[SKRIEMELT_TRIM_GLOBAL_MODE]);
    for (i = 0; r->trim[SKRIEMELT_TRIM_GLOBAL_MODE] == SKRIEMELT_TRIM_MODE_CUSTOM && i < SKRIEMELT_TRIM_CONFIGS; i++)
        print_config(config_of(r, i), i);
    print("trim.b_disable_trim_per_obj=%u\n", r->trim[SKRIEMELT_TRIM_PER_OBJECT]);
    for (i = 0; r->trim[SKRIEMELT_TRIM_PER_OBJECT] && i < r->answer.programme.objects; i++)
        print("trim.object.%u.b_disable_trim=%u\n", i, r->trim[SKRIEMELT_TRIM_FIXED + i]);
}

/* Tables 35 to 37, in hundredths of a dB. */
static double trim_db(unsigned code)
{
    static const double db[16] = {6, 3, 1.5, 0.75, -0.75, -1.5, -3, -4.5, -6, -7.5, -9, -10.5, -12, -13.5, -16, -36};

    return db[code & 15];
}

static void print_balance(const uint8_t *config, unsigned sign, const char *plane)
{
    print(", %s balance %u/16 towards the %s", plane, config[sign + 1] + 1U, config[sign] ? "back" : "front");
}

static void print_config_people(const uint8_t *config, unsigned c)
{
    unsigned carried = config[SKRIEMELT_TRIM_CONFIG_CARRIED], i;

    print("  configuration %u: ", c);
    if (config[SKRIEMELT_TRIM_CONFIG_DEFAULT])
        print("default");
    else if (config[SKRIEMELT_TRIM_CONFIG_DISABLE])
        print("disabled");
    else
        print("%s", carried ? "custom" : "nothing carried");
    for (i = 0; i < 3; i++) {
        if ((carried & values[i].carried) != 0)
            print(", %s %+.2f dB", values[i].name + sizeof "trim_" - 1, trim_db(config[values[i].place]));
    }
    if ((carried & SKRIEMELT_TRIM_CARRIED_TB) != 0)
        print_balance(config, SKRIEMELT_TRIM_CONFIG_SIGN_TB, "top and bottom");
    if ((carried & SKRIEMELT_TRIM_CARRIED_LIS) != 0)
        print_balance(config, SKRIEMELT_TRIM_CONFIG_SIGN_LIS, "listener plane");
    print("\n");
}

void print_trim_people(const reading *r)
{
    static const char *const modes[3] = {"default", "disabled", "custom"};
    unsigned mode = r->trim[SKRIEMELT_TRIM_GLOBAL_MODE], i;

    if (r->answer.refusal != SKRIEMELT_ACCEPTED)
        return;
    if (!r->trim[SKRIEMELT_TRIM_PRESENT]) {
        print("trim: none\n");
        return;
    }
    print("trim: %s%s\n", mode < 3 ? modes[mode] : "?", r->trim[SKRIEMELT_TRIM_WARP_MODE] ? ", y is to be doubled before rendering" : "");
    for (i = 0; mode == SKRIEMELT_TRIM_MODE_CUSTOM && i < SKRIEMELT_TRIM_CONFIGS; i++)
        print_config_people(config_of(r, i), i);
    for (i = 0; i < r->answer.programme.objects; i++) {
        if (r->trim[SKRIEMELT_TRIM_FIXED + i])
            print("  object %u: disabled\n", i);
    }
}
