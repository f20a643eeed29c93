/*
 * json.c - the tokens of a JSON text, without a copy of it, and without a call of malloc.
 *
 * A caller gives an array of tokens. Each says what it is, from which byte up to which it goes, and how many tokens stand directly in it.
 */
#include <stddef.h>
#include <stdio.h>

typedef enum {
	JSON_UNDEFINED = 0,
	JSON_OBJECT = 1 << 0,
	JSON_ARRAY = 1 << 1,
	JSON_STRING = 1 << 2,
	JSON_PRIMITIVE = 1 << 3,
} json_type;

enum json_error {
	/* there are too few tokens for the text */
	JSON_ERROR_NOMEM = -1,
	/* a byte that may not stand there */
	JSON_ERROR_INVAL = -2,
	/* the text ends too soon */
	JSON_ERROR_PART = -3
};

typedef struct json_token {
	json_type type;
	int start, end;
	int size;
	int parent;
} json_token;

typedef struct json_parser {
	unsigned int pos;
	unsigned int next;
	int super;
} json_parser;

static json_token *json_alloc(json_parser *parser, json_token *tokens, const size_t count)
{
	json_token *token;
	if (parser->next >= count)
		return NULL;
	token = &tokens[parser->next];
	parser->next++;
	token->start = -1;
	token->end = -1;
	token->size = 0;
	token->parent = -1;
	return token;
}

static void json_fill(json_token *token, const json_type type, const int start, const int end)
{
	token->type = type;
	token->start = start;
	token->end = end;
	token->size = 0;
}

static int json_primitive(json_parser *parser, const char *js, const size_t len, json_token *tokens, const size_t count)
{
	json_token *token;
	int start = parser->pos;
	for (; parser->pos < len && js[parser->pos] != '\0'; parser->pos++) {
		int ends = 0;
		switch (js[parser->pos]) {
		case ':':
		case '\t':
		case '\r':
		case '\n':
		case ' ':
		case ',':
		case ']':
		case '}':
			ends = 1;
			break;
		default:
			/* what it is else is asked below */
			break;
		}
		if (ends)
			break;
		if (js[parser->pos] < 32 || js[parser->pos] >= 127) {
			parser->pos = start;
			return JSON_ERROR_INVAL;
		}
	}
	token = json_alloc(parser, tokens, count);
	if (token == NULL) {
		parser->pos = start;
		return JSON_ERROR_NOMEM;
	}
	json_fill(token, JSON_PRIMITIVE, start, parser->pos);
	token->parent = parser->super;
	parser->pos--;
	return 0;
}

static int json_string(json_parser *parser, const char *js, const size_t len, json_token *tokens, const size_t count)
{
	json_token *token;
	int start = parser->pos;
	parser->pos++;
	for (; parser->pos < len && js[parser->pos] != '\0'; parser->pos++) {
		char c = js[parser->pos];
		if (c == '"') {
			token = json_alloc(parser, tokens, count);
			if (token == NULL) {
				parser->pos = start;
				return JSON_ERROR_NOMEM;
			}
			json_fill(token, JSON_STRING, start + 1, parser->pos);
			token->parent = parser->super;
			return 0;
		}
		if (c == '\\' && parser->pos + 1 < len) {
			int i;
			parser->pos++;
			switch (js[parser->pos]) {
			case '"': case '/': case '\\': case 'b':
			case 'f': case 'r': case 'n': case 't':
				break;
			case 'u':
				parser->pos++;
				for (i = 0; i < 4 && parser->pos < len && js[parser->pos] != '\0'; i++) {
					c = js[parser->pos];
					if (!((c >= '0' && c <= '9') || (c >= 'A' && c <= 'F') || (c >= 'a' && c <= 'f'))) {
						parser->pos = start;
						return JSON_ERROR_INVAL;
					}
					parser->pos++;
				}
				parser->pos--;
				break;
			default:
				parser->pos = start;
				return JSON_ERROR_INVAL;
			}
		}
	}
	parser->pos = start;
	return JSON_ERROR_PART;
}

static void json_init(json_parser *parser)
{
	parser->pos = 0;
	parser->next = 0;
	parser->super = -1;
}

static int json_close(json_parser *parser, json_token *tokens, const json_type type)
{
	int i = parser->next - 1;
	do {
		json_token *token = &tokens[i];
		if (token->start != -1 && token->end == -1) {
			if (token->type != type)
				return JSON_ERROR_INVAL;
			token->end = parser->pos + 1;
			parser->super = token->parent;
			return 0;
		}
		i = token->parent;
	} while (i >= 0);
	return JSON_ERROR_INVAL;
}

/* The tokens of the text: how many there are, or what is wrong. */
static int json_parse(json_parser *parser, const char *js, const size_t len, json_token *tokens, const unsigned int count)
{
	int r;
	json_token *token;
	for (; parser->pos < len && js[parser->pos] != '\0'; parser->pos++) {
		char c = js[parser->pos];
		switch (c) {
		case '{':
		case '[':
			token = json_alloc(parser, tokens, count);
			if (token == NULL)
				return JSON_ERROR_NOMEM;
			if (parser->super != -1) {
				tokens[parser->super].size++;
				token->parent = parser->super;
			}
			token->type = c == '{' ? JSON_OBJECT : JSON_ARRAY;
			token->start = parser->pos;
			parser->super = parser->next - 1;
			break;
		case '}':
		case ']':
			if (parser->next < 1)
				return JSON_ERROR_INVAL;
			r = json_close(parser, tokens, c == '}' ? JSON_OBJECT : JSON_ARRAY);
			if (r < 0)
				return r;
			break;
		case '"':
			r = json_string(parser, js, len, tokens, count);
			if (r < 0)
				return r;
			if (parser->super != -1)
				tokens[parser->super].size++;
			break;
		case '\t':
		case '\r':
		case '\n':
		case ' ':
			break;
		case ':':
			parser->super = parser->next - 1;
			break;
		case ',':
			if (parser->super != -1 && tokens[parser->super].type != JSON_ARRAY && tokens[parser->super].type != JSON_OBJECT)
				parser->super = tokens[parser->super].parent;
			break;
		default:
			r = json_primitive(parser, js, len, tokens, count);
			if (r < 0)
				return r;
			if (parser->super != -1)
				tokens[parser->super].size++;
			break;
		}
	}
	for (int i = parser->next - 1; i >= 0; i--)
		if (tokens[i].start != -1 && tokens[i].end == -1)
			return JSON_ERROR_PART;
	return parser->next;
}

/* ---- a text of its own, shown token by token */

#define TOKENS 32

static char *type_name(json_type type)
{
	switch (type) {
	case JSON_OBJECT:
		return "object";
	case JSON_ARRAY:
		return "array";
	case JSON_STRING:
		return "string";
	case JSON_PRIMITIVE:
		return "primitive";
	case JSON_UNDEFINED:
	default:
		return "undefined";
	}
}

static void show(char *js)
{
	json_parser parser;
	json_token tokens[TOKENS];
	size_t len = 0;
	while (js[len])
		len++;
	json_init(&parser);
	int r = json_parse(&parser, js, len, tokens, TOKENS);
	printf("%s: %d\n", js, r);
	for (int i = 0; i < r; i++) {
		printf("  %s of %d: ", type_name(tokens[i].type), tokens[i].size);
		for (int k = tokens[i].start; k < tokens[i].end; k++)
			printf("%c", js[k]);
		printf("\n");
	}
}

int main(void)
{
	show("{\"name\": \"alaska\", \"sizes\": [1, 22, -3], \"moves\": true}");
	show("[[], {}, \"\\u00e9\\n\"]");
	show("[1, 2}");
	show("{\"open\": [1");
	show("\"\\q\"");
	return 0;
}
