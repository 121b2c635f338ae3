SET SCALE 2 ROUNDING HALF_UP;
INPUT "T" ("id" INTEGER, "k" TEXT, "v" INTEGER) KEY ("id");
CREATE TABLE "U" AS
  SELECT "t"."id" AS "id", RANK() OVER (ORDER BY "t"."v") AS "w1",
    RANK() OVER (ORDER BY "t"."v" DESC) AS "w2", RANK() OVER (ORDER BY "t"."k") AS "w3",
    RANK() OVER (PARTITION BY "t"."k" ORDER BY "t"."v") AS "w4"
  FROM "T" AS "t";
EXPORT "U" ORDER BY "id";
