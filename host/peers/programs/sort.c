/* Three sorts of random and of nearly equal numbers, signed and unsigned. */
#include "peer.h"

#define LENGTH 300

static i32 numbers[LENGTH];

static void fill(u32 seed, u32 mask)
{
    for (u32 i = 0; i < LENGTH; i++)
        numbers[i] = (i32)(next_random(&seed) & mask);
}

static void put_all(void)
{
    for (u32 i = 0; i < LENGTH; i++)
        put32((u32)numbers[i]);
}

static void insertion_sort(void)
{
    for (i32 i = 1; i < LENGTH; i++) {
        i32 value = numbers[i], j = i - 1;
        for (; j >= 0 && numbers[j] > value; j--)
            numbers[j + 1] = numbers[j];
        numbers[j + 1] = value;
    }
}

static void sift(u32 root, u32 end)
{
    u32 *heap = (u32 *)numbers;
    for (u32 child; (child = 2 * root + 1) < end; root = child) {
        if (child + 1 < end && heap[child] < heap[child + 1])
            child++;
        if (heap[root] >= heap[child])
            return;
        u32 kept = heap[root];
        heap[root] = heap[child];
        heap[child] = kept;
    }
}

static void heap_sort(void)
{
    for (u32 i = LENGTH / 2; i-- > 0;)
        sift(i, LENGTH);
    for (u32 end = LENGTH - 1; end > 0; end--) {
        i32 top = numbers[0];
        numbers[0] = numbers[end];
        numbers[end] = top;
        sift(0, end);
    }
}

static void quick_sort(i32 low, i32 high)
{
    if (low >= high)
        return;
    i32 pivot = numbers[(low + high) / 2], i = low, j = high;
    while (i <= j) {
        while (numbers[i] < pivot)
            i++;
        while (numbers[j] > pivot)
            j--;
        if (i <= j) {
            i32 kept = numbers[i];
            numbers[i++] = numbers[j];
            numbers[j--] = kept;
        }
    }
    quick_sort(low, j);
    quick_sort(i, high);
}

void results(void)
{
    static const u32 masks[] = {0xFFFFFFFF, 0x7, 0x8000000F};
    for (u32 m = 0; m < COUNT(masks); m++) {
        fill(7 + m, masks[m]);
        insertion_sort();
        put_all();
        fill(7 + m, masks[m]);
        heap_sort();
        put_all();
        fill(7 + m, masks[m]);
        quick_sort(0, LENGTH - 1);
        put_all();
    }
}
