"""Writes EXPRESS schemas like those of application protocols: entities with attributes, supertypes, inverse attributes
and rules; selects and enumerations; functions with loops and queries; and remarks between them."""

HEAD = "SCHEMA measured;\n\nCONSTANT\n  schema_prefix : STRING := 'MEASURED.';\nEND_CONSTANT;\n\n"

PIECE = """TYPE label_{n} = STRING;
END_TYPE; -- label_{n}

TYPE kind_{n} = ENUMERATION OF (unspecified_{n}, circular_{n}, rectangular_{n});
END_TYPE;

TYPE measure_{n} = SELECT (label_{n}, kind_{n}, item_{n});
END_TYPE;

(* An item of the representation, which {n} others may use. *)
ENTITY item_{n}
  ABSTRACT SUPERTYPE OF (ONEOF (point_{n}, curve_{n}));
  name        : label_{n};
  description : OPTIONAL STRING (80);
INVERSE
  users : SET [0:?] OF curve_{n} FOR points;
UNIQUE
  ur1 : name, description;
END_ENTITY;

ENTITY point_{n}
  SUBTYPE OF (item_{n});
  coordinates : LIST [1:3] OF REAL;
DERIVE
  dimension : INTEGER := HIINDEX(coordinates);
WHERE
  wr1 : (dimension >= 2) AND (dimension <= 3);
  wr2 : NOT ('MEASURED.CURVE_{n}' IN TYPEOF(SELF));
END_ENTITY;

ENTITY curve_{n}
  SUBTYPE OF (item_{n});
  points : LIST [2:?] OF UNIQUE point_{n};
  kind   : kind_{n};
  closed : LOGICAL;
WHERE
  wr1 : SIZEOF(QUERY(temp <* points | temp\\point_{n}.dimension <> points[1]\\point_{n}.dimension)) = 0;
  wr2 : {{1 < SIZEOF(points) <= 10000}} OR (kind = circular_{n});
END_ENTITY;

FUNCTION count_{n} (items : SET OF item_{n}; limit : INTEGER) : INTEGER;
  LOCAL
    found : INTEGER := 0;
    i     : INTEGER;
  END_LOCAL;
  REPEAT i := 1 TO HIINDEX(items) WHILE found < limit;
    IF EXISTS(items[i].name) AND (LENGTH(items[i].name) > 0) THEN
      found := found + 1;
    ELSE
      SKIP;
    END_IF;
  END_REPEAT;
  CASE found OF
    0         : RETURN (?);
    1, 2      : found := (found + 1) * 2 - limit DIV 3;
    OTHERWISE : ;
  END_CASE;
  RETURN (found);
END_FUNCTION;

RULE few_{n} FOR (item_{n}, curve_{n});
WHERE
  wr1 : count_{n}(item_{n}, 100) <= SIZEOF(item_{n}) + SIZEOF(curve_{n});
END_RULE;

"""

FOOT = "END_SCHEMA;\n"


def express(count):
    """A schema of so many pieces."""
    return HEAD + "".join(PIECE.format(n=n) for n in range(1, count + 1)) + FOOT


def count_within(limit):
    """The most pieces of a schema of at most so many bytes."""
    low, high = 1, limit // 1000
    while low < high:
        middle = (low + high + 1) // 2
        if len(express(middle)) <= limit:
            low = middle
        else:
            high = middle - 1
    return low
