
/*
 * The functions of cvss.h. Structs are passed by copies above the stack: FIRST and, for errors, SECOND. In the copies numbers of
 * type size_t have 8 bytes, on each system.
 */
#define STRUCT(m) (ADDRESS((m)->own) + STACK)
#define FIRST(m) STRUCT(m)
#define SECOND(m) (STRUCT(m) + 288)
enum { VECTOR_SIZE = 64, ERROR_SIZE = 40, VALUES_SIZE = 272, NUMBERS_SIZE = 64, MATCH_SIZE = 32 };

static void begin(Memory *m, const void *text, size_t length, const void *buffer, u64 size)
{
    m->stack_pointer = STRUCT(m) & ~(u64)15;
    m->is_in_call = 0;
    m->text.start = ADDRESS(text);
    m->text.size = length;
    m->metrics.start = m->metrics.size = 0;
    m->buffer.start = ADDRESS(buffer);
    m->buffer.size = size;
}

static u64 add_metrics(Memory *m, const void *metrics, size_t length)
{
    m->metrics.start = ADDRESS(metrics);
    m->metrics.size = length;
    return m->metrics.start;
}

static void get_numbers(Memory *m, u64 from, int32_t *numbers, int count)
{
    int i;
    for (i = 0; i < count; i++)
        numbers[i] = (int32_t)i32_load(m, from + 4 * (u64)i);
}

static void put_exact(Memory *m, u64 to, const CvssNumber *number)
{
    i64_store(m, to, (u64)number->trillionths);
    i64_store(m, to + 8, (u64)number->rest);
}

static void get_exact(Memory *m, u64 from, CvssNumber *number)
{
    number->trillionths = (int64_t)i64_load(m, from);
    number->rest = (int64_t)i64_load(m, from + 8);
}

static u64 put_error(Memory *m)
{
    i32_store(m, SECOND(m), ERROR_SIZE);
    return SECOND(m);
}

static size_t get_error(Memory *m, CvssError *error, u64 length)
{
    if (error->size >= sizeof *error) {
        get_numbers(m, SECOND(m) + 4, &error->kind, 3);
        memcpy(error->metric, (u8 *)m->own + STACK + 288 + 16, sizeof error->metric);
        error->quoted_start = (size_t)i64_load(m, SECOND(m) + 24);
        error->quoted_length = (size_t)i64_load(m, SECOND(m) + 32);
    }
    return (size_t)length;
}

size_t cvss_parse(const void *text, size_t length, uint32_t flags, CvssVector *vector, CvssError *error, void *buffer,
                  size_t size)
{
    Memory m;
    u64 told;
    begin(&m, text, length, buffer, size);
    i32_store(&m, FIRST(&m), VECTOR_SIZE);
    told = m_cvss_parse(&m, m.text.start, length, flags, FIRST(&m), put_error(&m), m.buffer.start, size);
    if (vector->size >= sizeof *vector && i32_load(&m, SECOND(&m) + 4) == CVSS_ACCEPTED)
        get_numbers(&m, FIRST(&m) + 4, &vector->version, 15);
    return get_error(&m, error, told);
}

int32_t cvss_score(const void *text, size_t length, uint32_t flags)
{
    Memory m;
    begin(&m, text, length, NULL, 0);
    return (int32_t)m_cvss_score(&m, m.text.start, length, flags);
}

size_t cvss_metrics(const void *text, size_t length, uint32_t flags, CvssMetric *metrics, size_t count)
{
    Memory m;
    begin(&m, text, length, metrics, (u64)count * sizeof *metrics);
    return (size_t)m_cvss_metrics(&m, m.text.start, length, flags, m.buffer.start, count);
}

bool cvss_values(const void *text, size_t length, uint32_t flags, CvssValues *values)
{
    Memory m;
    begin(&m, text, length, NULL, 0);
    i32_store(&m, FIRST(&m), VALUES_SIZE);
    if (values->size < sizeof *values || !m_cvss_values(&m, m.text.start, length, flags, FIRST(&m)))
        return false;
    get_numbers(&m, FIRST(&m) + 4, &values->version, 3);
    memcpy(values->fields, (u8 *)m.own + STACK + 16, sizeof values->fields);
    return true;
}

size_t cvss_with_metrics(const void *text, size_t length, const void *metrics, size_t metrics_length, uint32_t flags,
                         CvssError *error, void *buffer, size_t size)
{
    Memory m;
    begin(&m, text, length, buffer, size);
    return get_error(&m, error, m_cvss_with_metrics(&m, m.text.start, length, add_metrics(&m, metrics, metrics_length),
                                                    metrics_length, flags, put_error(&m), m.buffer.start, size));
}

size_t cvss_from_metrics(int32_t version, const void *metrics, size_t metrics_length, uint32_t flags, CvssError *error,
                         void *buffer, size_t size)
{
    Memory m;
    begin(&m, metrics, metrics_length, buffer, size);
    return get_error(&m, error, m_cvss_from_metrics(&m, (u32)version, m.text.start, metrics_length, flags, put_error(&m),
                                                    m.buffer.start, size));
}

#define WRITES(name) \
    size_t name(const void *text, size_t length, uint32_t flags, CvssError *error, void *buffer, size_t size) \
    { \
        Memory m; \
        begin(&m, text, length, buffer, size); \
        return get_error(&m, error, m_##name(&m, m.text.start, length, flags, put_error(&m), m.buffer.start, size)); \
    }
WRITES(cvss_without_not_defined)
WRITES(cvss_record)
WRITES(cvss_explain)

size_t cvss_score_line(const void *text, size_t length, uint32_t flags, void *buffer, size_t size)
{
    Memory m;
    begin(&m, text, length, buffer, size);
    return (size_t)m_cvss_score_line(&m, m.text.start, length, flags, m.buffer.start, size);
}

size_t cvss_score_lines(const void *texts, size_t length, uint32_t flags, void *buffer, size_t size, size_t *read)
{
    Memory m;
    u64 told;
    begin(&m, texts, length, buffer, size);
    told = m_cvss_score_lines(&m, m.text.start, length, flags, m.buffer.start, size, FIRST(&m));
    *read = (size_t)i64_load(&m, FIRST(&m));
    return (size_t)told;
}

bool cvss_find(const void *text, size_t length, CvssMatch *match)
{
    Memory m;
    begin(&m, text, length, NULL, 0);
    i32_store(&m, FIRST(&m), MATCH_SIZE);
    if (match->size < sizeof *match)
        return false;
    i64_store(&m, FIRST(&m) + 8, match->next);
    if (!m_cvss_find(&m, m.text.start, length, FIRST(&m)))
        return false;
    match->next = (size_t)i64_load(&m, FIRST(&m) + 8);
    match->offset = (size_t)i64_load(&m, FIRST(&m) + 16);
    match->length = (size_t)i64_load(&m, FIRST(&m) + 24);
    return true;
}

int32_t cvss_severity(int32_t version, int32_t tenths)
{
    Memory m;
    begin(&m, NULL, 0, NULL, 0);
    return (int32_t)m_cvss_severity(&m, (u32)version, (u32)tenths);
}

bool cvss_numbers(int32_t version, const void *metrics, size_t metrics_length, CvssNumbers *numbers)
{
    Memory m;
    begin(&m, metrics, metrics_length, NULL, 0);
    i32_store(&m, FIRST(&m), NUMBERS_SIZE);
    if (numbers->size < sizeof *numbers || !m_cvss_numbers(&m, (u32)version, m.text.start, metrics_length, FIRST(&m)))
        return false;
    get_numbers(&m, FIRST(&m) + 4, &numbers->base, 3);
    get_exact(&m, FIRST(&m) + 16, &numbers->impact);
    get_exact(&m, FIRST(&m) + 32, &numbers->exploitability);
    get_exact(&m, FIRST(&m) + 48, &numbers->adjusted_impact);
    return true;
}

bool cvss_rounded(int32_t version, const CvssNumber *number, int32_t *tenths)
{
    Memory m;
    begin(&m, NULL, 0, NULL, 0);
    put_exact(&m, FIRST(&m), number);
    if (!m_cvss_rounded(&m, (u32)version, FIRST(&m), SECOND(&m)))
        return false;
    get_numbers(&m, SECOND(&m), tenths, 1);
    return true;
}

bool cvss_temporal_with_impact(const void *metrics, size_t metrics_length, const CvssNumber *impact, int32_t *tenths)
{
    Memory m;
    begin(&m, metrics, metrics_length, NULL, 0);
    put_exact(&m, FIRST(&m), impact);
    if (!m_cvss_temporal_with_impact(&m, m.text.start, metrics_length, FIRST(&m), SECOND(&m)))
        return false;
    get_numbers(&m, SECOND(&m), tenths, 1);
    return true;
}
