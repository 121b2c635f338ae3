SET SCALE 2 ROUNDING HALF_UP;
INPUT "T" ("id" INTEGER, "k" INTEGER) KEY ("id");
INPUT "S" ("id" INTEGER, "k" INTEGER) KEY ("id");
CREATE TABLE "U" AS
  SELECT COUNT(*) AS "n", COUNT("t"."id") AS "t", COUNT("s"."id") AS "s", SUM("t"."id") AS "ts", SUM("s"."id") AS "ss"
  FROM "T" AS "t"
  INNER JOIN "S" AS "s" ON "t"."k" = "s"."k"
  UNION ALL
  SELECT COUNT(*) AS "n", COUNT("t"."id") AS "t", COUNT("s"."id") AS "s", SUM("t"."id") AS "ts", SUM("s"."id") AS "ss"
  FROM "T" AS "t"
  LEFT JOIN "S" AS "s" ON "t"."k" = "s"."k"
  UNION ALL
  SELECT COUNT(*) AS "n", COUNT("t"."id") AS "t", COUNT("s"."id") AS "s", SUM("t"."id") AS "ts", SUM("s"."id") AS "ss"
  FROM "T" AS "t"
  FULL JOIN "S" AS "s" ON "t"."k" = "s"."k"
  UNION ALL
  SELECT COUNT(*) AS "n", COUNT("t"."id") AS "t", COUNT("t"."k") AS "s", SUM("t"."id") AS "ts", SUM("t"."k") AS "ss"
  FROM "T" AS "t"
  WHERE EXISTS (SELECT 1 FROM "S" AS "s" WHERE "s"."k" = "t"."k");
EXPORT "U";
