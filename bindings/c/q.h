/* Document 01's room Q: one surfel that a cluster of itself lights, and two probes. */
#ifndef Q_H
#define Q_H

#include <stdint.h>

enum { Q_SURFELS = 1, Q_CLUSTERS = 1, Q_MEMBERS = 1, Q_LINKS = 1, Q_PROBES = 2, Q_LIMIT = 12, Q_CELLS = 4 };

extern const float q_p[3 * Q_SURFELS];
extern const float q_normals[3 * Q_SURFELS];
extern const float q_albedo[3 * Q_SURFELS];
extern const float q_area[Q_SURFELS];
extern const float q_light[3 * Q_SURFELS];

extern const float q_cluster_area[Q_CLUSTERS];
extern const uint32_t q_first[Q_CLUSTERS];
extern const uint32_t q_count[Q_CLUSTERS];
extern const uint32_t q_member[Q_MEMBERS];

extern const uint32_t q_starts[Q_SURFELS + 1];
extern const uint32_t q_link_cluster[Q_LINKS];
extern const float q_link_weight[Q_LINKS];

extern const float q_probe_p[3 * Q_PROBES];
extern const float q_probe_normals[3 * Q_PROBES];

/* The box of the grid, six arguments, its cells and the radius of a reading. */
#define Q_BOX 0.0f, 0.0f, 0.0f, 4.0f, 1.0f, 1.0f
#define Q_CELL 1.0f
#define Q_RADIUS 1.0f

#endif
