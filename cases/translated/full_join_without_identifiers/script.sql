SET SCALE 6 ROUNDING HALF_UP;
INPUT "x" ("k" TEXT, "u" INTEGER) KEY ("k");
INPUT "y" ("k" TEXT, "v" INTEGER) KEY ("k");
CREATE TABLE "A" AS
  SELECT "a"."u" AS "u"
  FROM "x" AS "a"
  WHERE "a"."k" = 'z';
CREATE TABLE "B" AS
  SELECT "a"."v" AS "v"
  FROM "y" AS "a"
  WHERE "a"."k" = 'b';
CREATE TABLE "R$1" AS
  SELECT TRUE AS "there"
  FROM "A" AS "a"
  UNION ALL
  SELECT TRUE AS "there"
  FROM "B" AS "a";
CREATE TABLE "R$2" AS
  SELECT "a"."there" AS "there"
  FROM "R$1" AS "a"
  GROUP BY "a"."there";
CREATE TABLE "R" AS
  SELECT "a$1"."u" AS "u", "a$2"."v" AS "v"
  FROM "R$2" AS "a$0"
  LEFT JOIN "A" AS "a$1" ON TRUE
  LEFT JOIN "B" AS "a$2" ON TRUE;
EXPORT "R";
