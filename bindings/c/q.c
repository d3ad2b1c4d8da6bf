#include "q.h"

const float q_p[] = {0.0f, 0.0f, 0.0f};
const float q_normals[] = {0.0f, 0.0f, 1.0f};
const float q_albedo[] = {0.5f, 0.5f, 0.5f};
const float q_area[] = {1.0f};
const float q_light[] = {1.0f, 1.0f, 1.0f};

const float q_cluster_area[] = {1.0f};
const uint32_t q_first[] = {0};
const uint32_t q_count[] = {1};
const uint32_t q_member[] = {0};

const uint32_t q_starts[] = {0, 1};
const uint32_t q_link_cluster[] = {0};
const float q_link_weight[] = {0.5f};

const float q_probe_p[] = {0.0f, 0.0f, 0.0f, 1.0f, 0.0f, 0.0f};
const float q_probe_normals[] = {0.0f, 0.0f, 1.0f, 0.0f, 0.0f, 1.0f};
