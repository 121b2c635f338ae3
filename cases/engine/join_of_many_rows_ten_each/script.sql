SET SCALE 2 ROUNDING HALF_UP;
INPUT "T" ("id" INTEGER, "k" INTEGER) KEY ("id");
INPUT "S" ("id" INTEGER, "k" INTEGER) KEY ("id");
CREATE TABLE "U" AS
  SELECT COUNT(*) AS "n", COUNT("t"."id") AS "t", COUNT("s"."id") AS "s", SUM("t"."id") AS "ts", SUM("s"."id") AS "ss"
  FROM "T" AS "t"
  INNER JOIN "S" AS "s" ON "t"."k" = "s"."k";
EXPORT "U";
