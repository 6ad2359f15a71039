/* The work of CISSA by OpenSSL: scrambles or descrambles batches of 64 packets and says how long it took.

   Each packet has a payload of 184 bytes, of which AES-128 in CBC mode changes 176 and 8 stay clear. As in
   the element, the word's schedule is made once for each batch, and every packet starts from the initial
   vector. Prints the microseconds and the last packet, in hexadecimal. */

#include <openssl/evp.h>
#include <stdio.h>
#include <stdlib.h>
#include <string.h>
#include <time.h>

enum { PACKETS = 64, PACKET = 188, HEADER = 4, BLOCKS = 176, BATCH = PACKETS * PACKET };

static const unsigned char WORD[16] = {
    0x00, 0x11, 0x22, 0x33, 0x44, 0x55, 0x66, 0x77, 0x88, 0x99, 0xaa, 0xbb, 0xcc, 0xdd, 0xee, 0xff};
static const unsigned char VECTOR[17] = "DVBTMCPTAESCISSA";

/* Clear packets of PID 128; byte n of the payload of packet k is k + n. */
static void fill(unsigned char *batch) {
    for (int k = 0; k < PACKETS; k++) {
        unsigned char *packet = batch + k * PACKET;
        packet[0] = 0x47;
        packet[1] = 0x00;
        packet[2] = 0x80;
        packet[3] = 0x10;
        for (int n = 0; n < PACKET - HEADER; n++)
            packet[HEADER + n] = (unsigned char)(k + n);
    }
}

static void turn_batch(EVP_CIPHER_CTX *context, int scrambling, unsigned char *batch) {
    int length;
    int good = EVP_CipherInit_ex(context, NULL, NULL, WORD, VECTOR, scrambling);
    EVP_CIPHER_CTX_set_padding(context, 0);
    for (int k = 0; k < PACKETS && good; k++) {
        unsigned char *packet = batch + k * PACKET;
        packet[3] = scrambling ? (packet[3] & 0x3f) | 0x80 : packet[3] & 0x3f;
        good = EVP_CipherInit_ex(context, NULL, NULL, NULL, VECTOR, scrambling)
            && EVP_CipherUpdate(context, packet + HEADER, &length, packet + HEADER, BLOCKS) && length == BLOCKS;
    }
    if (!good) {
        fprintf(stderr, "OpenSSL refused\n");
        exit(1);
    }
}

int main(int argc, char **argv) {
    if (argc != 3 || (strcmp(argv[1], "scramble") != 0 && strcmp(argv[1], "descramble") != 0)) {
        fprintf(stderr, "openssl scramble|descramble BATCHES\n");
        return 2;
    }
    int scrambling = strcmp(argv[1], "scramble") == 0;
    long batches = atol(argv[2]);
    static unsigned char source[BATCH], batch[BATCH];
    EVP_CIPHER_CTX *context = EVP_CIPHER_CTX_new();
    /* The cipher is looked up once, outside the measurement. */
    if (!EVP_CipherInit_ex(context, EVP_aes_128_cbc(), NULL, NULL, NULL, scrambling))
        return 1;
    fill(source);
    if (!scrambling)
        turn_batch(context, 1, source);
    struct timespec start, end;
    clock_gettime(CLOCK_MONOTONIC, &start);
    for (long done = 0; done < batches; done++) {
        memcpy(batch, source, BATCH);
        turn_batch(context, scrambling, batch);
    }
    clock_gettime(CLOCK_MONOTONIC, &end);
    printf("%lld\n", (end.tv_sec - start.tv_sec) * 1000000LL + (end.tv_nsec - start.tv_nsec) / 1000);
    for (int n = 0; n < PACKET; n++)
        printf("%02x", batch[BATCH - PACKET + n]);
    printf("\n");
    EVP_CIPHER_CTX_free(context);
    return 0;
}
