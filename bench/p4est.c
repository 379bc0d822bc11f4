/* Times p4est's iteration over faces with the update of the engine's files: the first line that a grid prints says which one it
 * is, the second the nanoseconds a leaf and step. p4est halves a cell on each axis where the engine divides it by three, so no grid
 * of several levels is the same in both. Here a square (a cube) of trees is refined so that it has as many leaves as can be near
 * the engine's: levels and trees are chosen for that. Each pass over the forest is one p4est_iterate: its volume callback makes
 * the update of the step before and begins the next one's sum, its face callback adds to the sums on both sides. An adaptive step
 * is p4est_refine, p4est_coarsen and p4est_balance besides, by the differences of which the engine's criterion speaks. Where leaves
 * of two sizes meet, the great one sees the mean of the small ones (the engine: the value of the centre child).
 * Compiled as it stands for the plane, and with -DSPACE for space. One process, one thread, no message passing. */
#ifdef SPACE
#include <p4est_to_p8est.h>
#include <p8est_extended.h>
#include <p8est_iterate.h>
#else
#include <p4est_extended.h>
#include <p4est_iterate.h>
#endif
#include <stdint.h>
#include <stdio.h>
#include <stdlib.h>
#include <time.h>

/* What a leaf has: its value, a wave's speed, the sum of the rises across its faces, and the greatest of them. */
typedef struct
{
  int64_t value, speed, sum, most;
} leaf_t;

/* A grid to be timed, and the update: `factor * 4^level / divisor` times the sum of the rises. */
typedef struct
{
  const char *name;
  int trees, level, deepest, steps, wave;
  double from, to, fill_from, fill_to;
  int64_t factor, divisor, refine_at, coarsen_below;
} grid_t;

static const grid_t *grid;

static leaf_t *leaf_of (p4est_quadrant_t * q)
{
  return (leaf_t *) q->p.user_data;
}

/* The middle of a leaf, on an axis of the whole domain from 0 to 1. */
static double middle (p4est_t * p4est, p4est_topidx_t tree, const p4est_quadrant_t * q, int axis)
{
  p4est_topidx_t corner = p4est->connectivity->tree_to_vertex[P4EST_CHILDREN * tree];
  double place = axis == 0 ? q->x : q->y;
#ifdef SPACE
  if (axis == 2) place = q->z;
#endif
  place += P4EST_QUADRANT_LEN (q->level) / 2.;
  return (p4est->connectivity->vertices[3 * corner + axis] + place / P4EST_ROOT_LEN) / grid->trees;
}

static void fill (p4est_t * p4est, p4est_topidx_t tree, p4est_quadrant_t * q)
{
  leaf_t *leaf = leaf_of (q);
  int inside = 1;
  for (int axis = 0; axis < P4EST_DIM; axis++) {
    double x = middle (p4est, tree, q, axis);
    inside = inside && grid->fill_from < x && x < grid->fill_to;
  }
  leaf->value = inside ? (grid->wave ? 1000000 : 100000) : 0;
  leaf->speed = leaf->sum = leaf->most = 0;
}

/* The update of one leaf, as the engine's solvers have it: with 128 bits, rounded down. */
static void update (leaf_t * leaf, int level)
{
  __int128 product = (__int128) (grid->factor << 2 * level) * leaf->sum;
  int64_t change = (int64_t) (product / grid->divisor);
  if (product < 0 && (__int128) change * grid->divisor != product) change--;
  if (grid->wave) {
    leaf->speed += change;
    leaf->value += leaf->speed;
  } else {
    leaf->value += change;
  }
}

static void at_leaf (p4est_iter_volume_info_t * info, void *context)
{
  leaf_t *leaf = leaf_of (info->quad);
  update (leaf, info->quad->level);
  leaf->sum = leaf->most = 0;
}

static void add (leaf_t * leaf, int64_t rise)
{
  int64_t size = rise < 0 ? -rise : rise;
  leaf->sum += rise;
  if (size > leaf->most) leaf->most = size;
}

static void at_face (p4est_iter_face_info_t * info, void *context)
{
  if (info->sides.elem_count < 2) return;
  p4est_iter_face_side_t *side = p4est_iter_fside_array_index_int (&info->sides, 0);
  p4est_iter_face_side_t *other = side + 1;
  if (!side->is_hanging && !other->is_hanging) {
    leaf_t *a = leaf_of (side->is.full.quad), *b = leaf_of (other->is.full.quad);
    int64_t rise = b->value - a->value;
    add (a, rise);
    add (b, -rise);
    return;
  }
  p4est_iter_face_side_t *small = side->is_hanging ? side : other;
  leaf_t *great = leaf_of ((side->is_hanging ? other : side)->is.full.quad);
  int64_t values = 0;
  for (int k = 0; k < P4EST_HALF; k++) {
    leaf_t *one = leaf_of (small->is.hanging.quad[k]);
    add (one, great->value - one->value);
    values += one->value;
  }
  add (great, values / P4EST_HALF - great->value);
}

static int in_zone (p4est_t * p4est, p4est_topidx_t tree, p4est_quadrant_t * q)
{
  double x = middle (p4est, tree, q, 0), y = middle (p4est, tree, q, 1);
  return q->level < grid->deepest && grid->from < x && x < grid->to && (!grid->wave || (grid->from < y && y < grid->to));
}

static int is_steep (p4est_t * p4est, p4est_topidx_t tree, p4est_quadrant_t * q)
{
  return q->level < grid->deepest && leaf_of (q)->most >= grid->refine_at;
}

static int are_flat (p4est_t * p4est, p4est_topidx_t tree, p4est_quadrant_t * family[])
{
  for (int k = 0; k < P4EST_CHILDREN; k++)
    if (leaf_of (family[k])->most >= grid->coarsen_below) return 0;
  return family[0]->level > grid->level;
}

/* A leaf gives its value to its children, a family the mean of its values to their parent. */
static void replace (p4est_t * p4est, p4est_topidx_t tree, int before, p4est_quadrant_t * old[], int after, p4est_quadrant_t * new[])
{
  leaf_t mean = { 0, 0, 0, 0 };
  for (int k = 0; k < before; k++) {
    mean.value += leaf_of (old[k])->value;
    mean.speed += leaf_of (old[k])->speed;
  }
  mean.value /= before;
  mean.speed /= before;
  for (int k = 0; k < after; k++)
    *leaf_of (new[k]) = mean;
}

/* Takes so many steps of a forest, and tells the nanoseconds a leaf and step, and the leaves of its last step. */
static double time_steps (sc_MPI_Comm comm, p4est_connectivity_t * domain, long *leaves)
{
  struct timespec start, end;
  p4est_t *forest = p4est_new_ext (comm, domain, 0, grid->level, 1, sizeof (leaf_t), fill, NULL);
  long all = 0;
  if (grid->deepest > grid->level) {
    p4est_refine (forest, 1, in_zone, fill);
    p4est_balance (forest, P4EST_CONNECT_FACE, fill);
  }
  clock_gettime (CLOCK_MONOTONIC, &start);
  for (int step = 0; step < grid->steps; step++) {
    all += forest->local_num_quadrants;
    p4est_iterate (forest, NULL, NULL, at_leaf, at_face, NULL
#ifdef SPACE
                   , NULL
#endif
      );
    if (grid->wave) {
      p4est_refine_ext (forest, 0, grid->deepest, is_steep, NULL, replace);
      p4est_coarsen_ext (forest, 0, 0, are_flat, NULL, replace);
      p4est_balance_ext (forest, P4EST_CONNECT_FACE, NULL, replace);
    }
  }
  clock_gettime (CLOCK_MONOTONIC, &end);
  *leaves = forest->local_num_quadrants;
  p4est_destroy (forest);
  return ((end.tv_sec - start.tv_sec) * 1e9 + (end.tv_nsec - start.tv_nsec)) / all;
}

#ifdef SPACE
static const grid_t grids[] = {
  {"space, level 3", 7, 2, 2, 6, 0, 0, 0, 1 / 3., 2 / 3., 49, 7290 * 49 / 46, 0, 0},
};
#else
static const grid_t grids[] = {
  {"plane, level 4", 5, 4, 4, 20, 0, 0, 0, 1 / 3., 2 / 3., 25, 65610, 0, 0},
  {"plane, level 5", 15, 4, 4, 4, 0, 0, 0, 1 / 3., 2 / 3., 225, 590490, 0, 0},
  {"plane, 177,777 leaves", 15, 4, 5, 2, 0, 0, 167 / 240., 1 / 3., 2 / 3., 225, 5314410, 0, 0},
  {"plane, adaptive wave", 7, 2, 5, 40, 1, 11 / 27., 16 / 27., 12 / 27., 15 / 27., 49, 59049000, 200, 20},
};
#endif

int main (int count, char **words)
{
  int passes = count > 1 ? atoi (words[1]) : 5;
  sc_MPI_Init (&count, &words);
  sc_init (sc_MPI_COMM_SELF, 0, 0, NULL, SC_LP_SILENT);
  p4est_init (NULL, SC_LP_SILENT);
  for (size_t n = 0; n < sizeof grids / sizeof grids[0]; n++) {
    double least = 0;
    long leaves = 0;
    grid = &grids[n];
#ifdef SPACE
    p4est_connectivity_t *domain = p8est_connectivity_new_brick (grid->trees, grid->trees, grid->trees, 0, 0, 0);
#else
    p4est_connectivity_t *domain = p4est_connectivity_new_brick (grid->trees, grid->trees, 0, 0);
#endif
    for (int pass = 0; pass < passes; pass++) {
      double each = time_steps (sc_MPI_COMM_SELF, domain, &leaves);
      if (pass == 0 || each < least) least = each;
    }
    printf ("%s: p4est %.0f ns, %ld leaves\n", grid->name, least, leaves);
    p4est_connectivity_destroy (domain);
  }
  sc_finalize ();
  sc_MPI_Finalize ();
  return 0;
}
