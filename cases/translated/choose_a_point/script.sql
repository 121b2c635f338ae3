SET SCALE 6 ROUNDING HALF_UP;
INPUT "DS_c" ("Id_1" TEXT, "p" BOOLEAN) KEY ("Id_1");
INPUT "DS_1" ("Id_1" TEXT, "a" INTEGER, "b" TEXT) KEY ("Id_1");
INPUT "DS_2" ("Id_1" TEXT, "b" TEXT, "a" INTEGER) KEY ("Id_1");
CREATE TABLE "DS_r" AS
  SELECT "a"."Id_1" AS "Id_1", "b"."a" AS "a", "b"."b" AS "b"
  FROM "DS_c" AS "a"
  INNER JOIN "DS_1" AS "b" ON "b"."Id_1" = "a"."Id_1"
  WHERE "a"."p"
  UNION ALL
  SELECT "a"."Id_1" AS "Id_1", "b"."a" AS "a", "b"."b" AS "b"
  FROM "DS_c" AS "a"
  INNER JOIN "DS_2" AS "b" ON "b"."Id_1" = "a"."Id_1"
  WHERE CASE WHEN "a"."p" THEN FALSE ELSE TRUE END;
EXPORT "DS_r" ORDER BY "Id_1";
