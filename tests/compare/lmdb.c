/*
 * LMDB's side of the comparison: 64 values of 32 bytes by page number, one transaction a set.
 *
 *   lmdb                              prints LMDB's version
 *   lmdb DIRECTORY make               every page stored
 *   lmdb DIRECTORY store SETS SIZE    opens it and stores so many sets of so many pages
 */
#include <lmdb.h>

#include <stdint.h>
#include <stdio.h>
#include <stdlib.h>
#include <string.h>

enum { PAGES = 64, WIDTH = 32 };

static MDB_env *env;

static void done(int status) {
    if (status != 0) {
        fprintf(stderr, "lmdb: %s\n", mdb_strerror(status));
        exit(1);
    }
}

/* Set n: `size` pages that follow those of set n-1, with bytes of its own. */
static void store(uint32_t n, uint32_t size) {
    MDB_txn *set;
    MDB_dbi pages;
    uint32_t i, page;
    uint8_t bytes[WIDTH];
    memset(bytes, (int)(n % 256), sizeof bytes);
    done(mdb_txn_begin(env, NULL, 0, &set));
    done(mdb_dbi_open(set, NULL, MDB_INTEGERKEY, &pages));
    for (i = 0; i < size; i++) {
        MDB_val key = {sizeof page, &page}, value = {sizeof bytes, bytes};
        page = (n * size + i) % PAGES;
        done(mdb_put(set, pages, &key, &value, 0));
    }
    done(mdb_txn_commit(set));
}

int main(int argc, char **argv) {
    if (argc == 1) {
        printf("%d.%d.%d\n", MDB_VERSION_MAJOR, MDB_VERSION_MINOR, MDB_VERSION_PATCH);
        return 0;
    }
    if (!(argc == 3 && strcmp(argv[2], "make") == 0) && !(argc == 5 && strcmp(argv[2], "store") == 0)) {
        fprintf(stderr, "usage: lmdb | lmdb DIRECTORY make | lmdb DIRECTORY store SETS SIZE\n");
        return 2;
    }
    done(mdb_env_create(&env));
    done(mdb_env_open(env, argv[1], 0, 0600));
    if (argc == 3) {
        store(0, PAGES);
    } else {
        uint32_t n, sets = (uint32_t)strtoul(argv[3], NULL, 10), size = (uint32_t)strtoul(argv[4], NULL, 10);
        for (n = 1; n <= sets; n++) {
            store(n, size);
        }
    }
    mdb_env_close(env);
    return 0;
}
