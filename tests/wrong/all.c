#include "wrong.h"
#include "../harness.h"

const struct wrong_set wrong_sets[] = {
    { wrong_plans, ALL }, { wrong_fewer, ALL }, { wrong_numbers, ALL },   { wrong_decodes, ALL }, { wrong_machines, ALL },
    { wrong_marks, ALL }, { wrong_views, ALL }, { wrong_vets, ON_LISTS }, { wrong_chains, ALL },  { wrong_depths, ON_DEPTHS },
    { wrong_editions, ON_EDITIONS }, { wrong_sounds, ON_SOUND }, { wrong_wirings, ON_WIRINGS }, { wrong_meters, ON_METER },
    { wrong_pipes, ON_PIPES }, { wrong_screens, ON_EDID }, { wrong_looks, ALL }, { NULL, ALL },
};
