SET SCALE 2 ROUNDING HALF_UP;
INPUT "T" ("id" INTEGER, "k" INTEGER, "v" INTEGER) KEY ("id");
CREATE TABLE "U" AS
  SELECT "t"."id" AS "id"
  FROM "T" AS "t"
  WHERE NOT ("t"."k" = 10) AND ("t"."v" = 9 OR "t"."v" IS NULL) XOR "t"."id" = 4;
EXPORT "U";
