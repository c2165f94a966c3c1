/* Times DPDK's rte_sched beside the library: peer [quick]. bin/speed peer builds it where pkg-config finds libdpdk, and runs it.
   64 queues, equal weights and rates, 32 packets of 64 bytes in each: a burst of packets is taken out and put in again, so every queue
   stays backlogged. Twice: 16 pipes with 4 best-effort queues each, and 64 pipes with one. It needs no hugepages and no network device. The
   clock is the processor time of the thread; a figure is the best of several. It says how full its bursts were, and how evenly the queues
   were served. Status 2: bad words; 3: it cannot run. */
#define _GNU_SOURCE
#include <inttypes.h>
#include <rte_eal.h>
#include <rte_errno.h>
#include <rte_mbuf.h>
#include <rte_sched.h>
#include <rte_version.h>
#include <stdio.h>
#include <string.h>
#include <time.h>

enum { QUEUES = 64, DEEP = 32, LENGTH = 64, MOST = 32 };

static double now(void) {
    struct timespec t;
    clock_gettime(CLOCK_THREAD_CPUTIME_ID, &t);
    return (double)t.tv_sec * 1e9 + (double)t.tv_nsec;
}

static int cannot(const char *what) {
    fprintf(stderr, "peer: %s: %s\n", what, rte_strerror(rte_errno));
    return 3;
}

/* The rates are far above what one processor sends (100 Gbit/s, shared out evenly among the pipes), so no queue ever waits for one. */
static struct rte_sched_port *port_of(uint32_t pipes) {
    static struct rte_sched_pipe_params pipe;
    static struct rte_sched_subport_profile_params profile;
    static struct rte_sched_subport_params subport;
    static struct rte_sched_port_params port;
    const uint64_t rate = 12500000000;
    pipe.tb_rate = rate / pipes;
    pipe.tb_size = 20000;
    pipe.tc_period = 10;
    pipe.tc_ov_weight = 1;
    profile.tb_rate = rate;
    profile.tb_size = 1000000;
    profile.tc_period = 10;
    for (int i = 0; i < RTE_SCHED_TRAFFIC_CLASSES_PER_PIPE; i++) {
        pipe.tc_rate[i] = pipe.tb_rate;
        profile.tc_rate[i] = rate;
        subport.qsize[i] = 64;
    }
    for (int i = 0; i < RTE_SCHED_BE_QUEUES_PER_PIPE; i++) pipe.wrr_weights[i] = 1;
    subport.n_pipes_per_subport_enabled = pipes;
    subport.pipe_profiles = &pipe;
    subport.n_pipe_profiles = subport.n_max_pipe_profiles = 1;
    port.name = "peer";
    port.socket = 0;
    port.rate = rate;
    port.mtu = 1522;
    port.frame_overhead = RTE_SCHED_FRAME_OVERHEAD_DEFAULT;
    port.n_subports_per_port = 1;
    port.subport_profiles = &profile;
    port.n_subport_profiles = port.n_max_subport_profiles = 1;
    port.n_pipes_per_subport = pipes;
    struct rte_sched_port *made = rte_sched_port_config(&port);
    if (!made || rte_sched_subport_config(made, 0, &subport, 0)) return NULL;
    for (uint32_t p = 0; p < pipes; p++) {
        if (rte_sched_pipe_config(made, 0, p, 0)) return NULL;
    }
    return made;
}

/* One arrangement: a row of figures, and how it served. */
static int arrangement(struct rte_mempool *pool, uint32_t pipes, uint64_t many, int best_of) {
    const int sizes[] = { 1, 8, 32 };
    const uint32_t each_pipe = QUEUES / pipes;
    struct rte_mbuf *packets[MOST];
    uint64_t served[QUEUES] = { 0 }, asked = 0, given = 0, least = UINT64_MAX, top = 0;
    double best[3] = { 1e18, 1e18, 1e18 };
    struct rte_sched_port *port = port_of(pipes);
    if (!port) return cannot("no scheduler");
    for (uint32_t k = 0; k < DEEP; k++) {
        for (uint32_t q = 0; q < QUEUES; q++) {
            struct rte_mbuf *m = rte_pktmbuf_alloc(pool);
            if (!m || !rte_pktmbuf_append(m, LENGTH)) return cannot("no packet");
            rte_sched_port_pkt_write(port, m, 0, q / each_pipe, RTE_SCHED_TRAFFIC_CLASS_BE, q % each_pipe, RTE_COLOR_GREEN);
            *rte_pktmbuf_mtod(m, uint32_t *) = q;
            packets[0] = m;
            if (rte_sched_port_enqueue(port, packets, 1) != 1) return cannot("a queue is full");
        }
    }
    for (int turn = 0; turn < best_of; turn++) {
        for (int s = 0; s < 3; s++) {
            uint64_t done = 0, tries = 0;
            double start = now();
            for (; done < many && tries < 10 * many; tries++) {
                int n = rte_sched_port_dequeue(port, packets, (uint32_t)sizes[s]);
                if (rte_sched_port_enqueue(port, packets, (uint32_t)n) != n) return cannot("a queue is full");
                done += (uint64_t)n;
            }
            double each = (now() - start) / (double)done;
            if (each < best[s]) best[s] = each;
            asked += tries * (uint64_t)sizes[s];
            given += done;
        }
    }
    /* who was served, not timed */
    for (uint64_t done = 0, tries = 0; done < many / 4 && tries < 10 * many; tries++) {
        int n = rte_sched_port_dequeue(port, packets, MOST);
        for (int i = 0; i < n; i++) served[*rte_pktmbuf_mtod(packets[i], uint32_t *)]++;
        if (rte_sched_port_enqueue(port, packets, (uint32_t)n) != n) return cannot("a queue is full");
        done += (uint64_t)n;
    }
    for (int q = 0; q < QUEUES; q++) {
        if (served[q] < least) least = served[q];
        if (served[q] > top) top = served[q];
    }
    rte_sched_port_free(port);
    printf("| %" PRIu32 " pipes, %" PRIu32 " in each | %.1f | %.1f | %.1f | %.1f %% |", pipes, each_pipe, best[0], best[1], best[2],
        100.0 * (double)given / (double)asked);
    printf(" %" PRIu64 " to %" PRIu64 " |\n", least, top);
    return 0;
}

int main(int words, char **word) {
    int quick = words == 2 && !strcmp(word[1], "quick");
    if (words > 2 || (words == 2 && !quick)) {
        fputs("peer: expected the word quick or none\n", stderr);
        return 2;
    }
    static char name[] = "peer", no_huge[] = "--no-huge", no_pci[] = "--no-pci", memory[] = "-m", megabytes[] = "256";
    static char level[] = "--log-level=1", telemetry[] = "--no-telemetry", conf[] = "--no-shconf";
    char *eal[] = { name, no_huge, no_pci, memory, megabytes, level, telemetry, conf };
    if (rte_eal_init(sizeof eal / sizeof *eal, eal) < 0) return cannot("no environment of DPDK");
    struct rte_mempool *pool = rte_pktmbuf_pool_create("peer", QUEUES * DEEP + 64, 0, 0, LENGTH + RTE_PKTMBUF_HEADROOM, SOCKET_ID_ANY);
    if (!pool) return cannot("no packets");

    const uint64_t many = quick ? 200000 : 1000000;
    const int best_of = quick ? 5 : 11;
    printf("%s, rte_sched, %d queues backlogged: nanoseconds for a packet out and in again, %" PRIu64 " packets,\n", rte_version(), QUEUES,
        many);
    printf("thread's processor time, best of %d.\n\n", best_of);
    printf("| Queues | bursts of 1 | 8 | 32 | bursts filled | packets of a queue, of %" PRIu64 " |\n", many / 4);
    puts("|---|---:|---:|---:|---:|---:|");
    int status = arrangement(pool, 16, many, best_of);
    return status ? status : arrangement(pool, 64, many, best_of);
}
