#include "model.h"
#include "../board.h"

void model_clear(model *m, uint32_t n) {
    memset(m, 0, sizeof *m);
    m->n = n;
    for (uint32_t v = 0; v < n; v++) m->order[v] = (uint16_t)v;
}

bool model_linked(const model *m, uint32_t a, uint32_t b) {
    for (uint32_t i = 0; i < m->degree[a]; i++)
        if (m->near[a][i] == b) return true;
    return false;
}

uint32_t model_refuses(const model *m, uint32_t a, uint32_t b, bool up) {
    if (a >= m->n || b >= m->n) return SB_RADIO;
    if (a == b) return SB_SAME_ENDS;
    if (model_linked(m, a, b) == up) return SB_LINK_STATE;
    if (up && (m->degree[a] == SB_NEIGHBOURS || m->degree[b] == SB_NEIGHBOURS)) return SB_NO_ROOM;
    return SB_OK;
}

uint32_t model_links(const model *m) {
    uint32_t ends = 0;
    for (uint32_t v = 0; v < m->n; v++) ends += m->degree[v];
    return ends / 2;
}

static void add_end(model *m, uint32_t a, uint32_t b) {
    uint32_t i = m->degree[a]++;
    for (; i > 0 && m->near[a][i - 1] > b; i--) m->near[a][i] = m->near[a][i - 1];
    m->near[a][i] = (uint16_t)b;
}

void model_join(model *m, uint32_t a, uint32_t b) {
    add_end(m, a, b), add_end(m, b, a);
}

static void strike_end(model *m, uint32_t a, uint32_t b) {
    uint32_t i = 0;
    while (m->near[a][i] != b) i++;
    for (m->degree[a]--; i < m->degree[a]; i++) m->near[a][i] = m->near[a][i + 1];
}

/* ---- numbers: with k rising, radios that have k neighbours or fewer left are taken away, and have number k */

typedef struct {
    int left[SB_RADIOS]; /* neighbours not taken */
    bool taken[SB_RADIOS];
    uint16_t queue[SB_RADIOS];
    uint32_t from, to;
} peeling;

static void take_where(peeling *p, uint32_t v, int k) {
    if (p->taken[v] || p->left[v] > k) return;
    p->taken[v] = true;
    p->queue[p->to++] = (uint16_t)v;
}

static void turn_over(const model *m, peeling *p, uint32_t a, uint32_t b) {
    int more = model_linked(m, a, b) ? -1 : 1;
    p->left[a] += more, p->left[b] += more;
}

static void take_neighbours(const model *m, peeling *p, uint32_t v, uint32_t a, uint32_t b, int k) {
    for (uint32_t i = 0; i < m->degree[v]; i++) {
        uint32_t w = m->near[v][i];
        if ((v == a && w == b) || (v == b && w == a)) continue;
        p->left[w]--, take_where(p, w, k);
    }
    if (a == b || (v != a && v != b) || model_linked(m, a, b)) return;
    uint32_t other = v == a ? b : a;
    p->left[other]--, take_where(p, other, k);
}

void model_numbers(const model *m, uint32_t a, uint32_t b, uint8_t *number) {
    static peeling p;
    p.from = p.to = 0;
    for (uint32_t v = 0; v < m->n; v++) p.left[v] = m->degree[v], p.taken[v] = false;
    if (a != b) turn_over(m, &p, a, b);
    for (int k = 0; p.to < m->n; k++) {
        for (uint32_t v = 0; v < m->n; v++) take_where(&p, v, k);
        for (; p.from < p.to; p.from++) {
            number[p.queue[p.from]] = (uint8_t)k;
            take_neighbours(m, &p, p.queue[p.from], a, b, k);
        }
    }
}

/* ---- the order */

/* Lays radios out anew: the next is always the first, as they stand, with at most t neighbours among those not yet laid out and all radios
   with a number above t. */
typedef struct {
    uint32_t place[SB_RADIOS]; /* 1 + where the radio stands among those to be laid out; 0: not one of them, or laid out */
    uint32_t later[SB_RADIOS]; /* the neighbours that count, of each to be laid out */
    uint32_t fit[SB_RADIOS / 32];
} laying;

static uint32_t counting(const model *m, const laying *l, uint32_t v, uint32_t t) {
    uint32_t count = 0;
    for (uint32_t i = 0; i < m->degree[v]; i++) count += l->place[m->near[v][i]] > 0 || m->number[m->near[v][i]] > t;
    return count;
}

static void judge(laying *l, uint32_t v, uint32_t t) {
    uint32_t at = l->place[v] - 1;
    if (l->later[v] <= t) l->fit[at / 32] |= 1u << at % 32;
}

static uint32_t first_fit(const laying *l) {
    uint32_t at = 0;
    while (l->fit[at / 32] == 0) at += 32;
    while ((l->fit[at / 32] >> at % 32 & 1) == 0) at++;
    return at;
}

static void laid(const model *m, laying *l, uint32_t v, uint32_t t) {
    uint32_t at = l->place[v] - 1;
    l->fit[at / 32] &= ~(1u << at % 32), l->place[v] = 0;
    for (uint32_t i = 0; i < m->degree[v]; i++) {
        uint32_t w = m->near[v][i];
        if (l->place[w] == 0) continue;
        l->later[w]--, judge(l, w, t);
    }
}

static void lay_out(const model *m, uint16_t *radios, uint32_t count, uint32_t t) {
    static laying l;
    static uint16_t stood[SB_RADIOS];
    memset(l.place, 0, sizeof l.place), memset(l.fit, 0, sizeof l.fit);
    memcpy(stood, radios, count * sizeof *radios);
    for (uint32_t i = 0; i < count; i++) l.place[stood[i]] = i + 1;
    for (uint32_t i = 0; i < count; i++) l.later[stood[i]] = counting(m, &l, stood[i], t), judge(&l, stood[i], t);
    for (uint32_t i = 0; i < count; i++) {
        radios[i] = stood[first_fit(&l)];
        laid(m, &l, radios[i], t);
    }
}

/* The stretch of level `level` is parted: first those that stay there when the link goes up, those that fall when it goes down. */
static void part_stretch(model *m, const uint8_t *before, uint32_t level, bool up) {
    static uint16_t front[SB_RADIOS], back[SB_RADIOS];
    uint32_t from = 0, fronts = 0, backs = 0;
    while (from < m->n && before[m->order[from]] < level) from++;
    for (uint32_t i = from; i < m->n && before[m->order[i]] == level; i++) {
        uint16_t v = m->order[i];
        if ((m->number[v] == level) == up) front[fronts++] = v;
        else back[backs++] = v;
    }
    lay_out(m, front, fronts, up ? level : level - 1);
    memcpy(m->order + from, front, fronts * sizeof *front);
    memcpy(m->order + from + fronts, back, backs * sizeof *back);
}

void model_link(model *m, uint32_t a, uint32_t b, bool up, change *c) {
    static uint8_t before[SB_RADIOS];
    uint32_t level = m->number[a] < m->number[b] ? m->number[a] : m->number[b];
    memcpy(before, m->number, sizeof before);
    if (up) model_join(m, a, b);
    else strike_end(m, a, b), strike_end(m, b, a);
    model_numbers(m, 0, 0, m->number);
    c->count = 0;
    for (uint32_t v = 0; v < m->n; v++)
        if (m->number[v] != before[v]) c->radios[c->count++] = (uint16_t)v;
    c->step = c->count == 0 ? 0 : up ? 1 : -1;
    if (up || c->count > 0) part_stretch(m, before, level, up);
}
